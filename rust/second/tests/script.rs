//! Scripts: what is a bad line, and what each call writes.

use second::run;

const REGION: &str = "call=create-region\nname=1\nstart=4\nlength=1020\npage=64\norder=0\n";
const REGION_ANSWER: &str = "status=0\nvalue=1\n";

/// A get of region 1 with these texts behind two of its keys.
fn get_of(align: &str, wait: &str) -> String {
    format!("call=get\nid=1\nsize=1\nalign={align}\nwait={wait}\ntask=1\npriority=1\nticks=1\n")
}

/// Writes a script from one line for each call: the name and then `key=value`
/// pairs, with spaces between.
fn script_of(calls: &str) -> String {
    let mut script = String::new();
    for call in calls.lines().map(str::trim).filter(|call| !call.is_empty()) {
        script.push_str("call=");
        script.push_str(&call.split_whitespace().collect::<Vec<_>>().join("\n"));
        script.push('\n');
    }
    script
}

fn output_of(script: &str) -> String {
    String::from_utf8(run(script.as_bytes())).unwrap()
}

fn assert_output(script: &str, output: &str) {
    assert_eq!(output_of(script), output, "script:\n{script}");
}

/// The script is good up to the line with this number, which ends the run.
fn assert_bad(script: &str, line: u32) {
    assert_output(script, &format!("bad={line}\n"));
}

/// Runs calls, one a line, and compares the answer that stands behind the
/// `->`: status, values, and for each notice its task, status and address.
fn assert_answers(lines: &str) {
    let pair = |line: &str| {
        let (call, answer) = line.split_once("->").expect("a call and its answer");
        (call.to_string(), answer.trim().to_string())
    };
    let (calls, answers): (Vec<_>, Vec<_>) = lines.lines().map(pair).unzip();
    let mut seen: Vec<String> = Vec::new();
    for line in output_of(&script_of(&calls.join("\n"))).lines() {
        let (key, value) = line.split_once('=').unwrap();
        match (key, seen.last_mut()) {
            ("status", _) => seen.push(value.to_string()),
            ("task", Some(last)) => last.push_str(&format!(" task {value}")),
            ("with", Some(last)) => last.push_str(&format!(" with {value}")),
            ("value", Some(last)) => last.push_str(&format!(" {value}")),
            _ => panic!("unexpected line {line}"),
        }
    }
    assert_eq!(seen, answers);
}

#[test]
fn every_call_and_every_status() {
    assert_answers(
        "create-region name=1 start=4 length=1020 page=64 order=0 -> 0 1
         create-region name=0 start=4 length=1020 page=64 order=0 -> 3 0
         ident-region name=1 -> 0 1
         get id=1 size=448 align=0 wait=0 task=0 priority=0 ticks=0 -> 0 64
         get id=1 size=512 align=0 wait=1 task=1 priority=1 ticks=0 -> 0 512
         get id=1 size=64 align=0 wait=0 task=0 priority=0 ticks=0 -> 13 0
         get id=1 size=960 align=0 wait=1 task=3 priority=1 ticks=2 -> 255 0
         get id=1 size=64 align=0 wait=1 task=3 priority=1 ticks=2 -> 14 0
         get id=1 size=64 align=0 wait=1 task=17 priority=1 ticks=2 -> 10 0
         get id=1 size=64 align=0 wait=1 task=5 priority=256 ticks=2 -> 19 0
         get id=1 size=64 align=0 wait=1 task=5 priority=255 ticks=0 -> 255 0
         tick -> 0 0
         tick -> 0 0 task 3 with 6 0
         size id=1 address=64 -> 0 448
         resize id=1 address=64 size=100 -> 0 448 task 5 with 0 192
         resize id=1 address=64 size=512 -> 13 128
         get id=1 size=512 align=0 wait=1 task=6 priority=1 ticks=0 -> 255 0
         info id=1 -> 0 1 256 256 3 512 704
         return id=1 address=512 -> 0 0 task 6 with 0 256
         return id=1 address=512 -> 9 0
         delete-region id=1 -> 12 0
         info id=2 -> 4 0 0 0 0 0 0
         create-partition name=1 start=1024 length=16 size=8 -> 0 1
         ident-partition name=1 -> 0 1
         get-buffer id=1 -> 0 1024
         delete-partition id=1 -> 12 0
         return-buffer id=1 address=1024 -> 0 0
         return-buffer id=1 address=1024 -> 9 0
         delete-partition id=1 -> 0 0
         return id=1 address=64 -> 0 0
         return id=1 address=128 -> 9 0
         delete-region id=1 -> 12 0
         create-region name=2 start=2048 length=576 page=64 order=2 -> 0 2
         get id=2 size=64 align=64 wait=0 task=0 priority=0 ticks=0 -> 11 0",
    );
}

#[test]
fn slots_are_used_again_under_other_ids() {
    assert_answers(
        "create-region name=1 start=4 length=1020 page=64 order=0 -> 0 1
         delete-region id=1 -> 0 0
         create-region name=2 start=4 length=1020 page=64 order=0 -> 0 17
         ident-region name=2 -> 0 17
         get id=1 size=960 align=0 wait=0 task=0 priority=0 ticks=0 -> 4 0
         get id=17 size=960 align=0 wait=0 task=0 priority=0 ticks=0 -> 0 64
         create-region name=3 start=1024 length=128 page=64 order=0 -> 0 2
         get id=2 size=64 align=0 wait=0 task=0 priority=0 ticks=0 -> 0 1088
         get id=2 size=64 align=0 wait=1 task=1 priority=1 ticks=1 -> 255 0
         get id=17 size=64 align=0 wait=1 task=2 priority=1 ticks=1 -> 255 0
         tick -> 0 0 task 2 with 6 0 task 1 with 6 0
         create-partition name=1 start=2048 length=16 size=8 -> 0 1
         delete-partition id=1 -> 0 0
         create-partition name=1 start=2048 length=16 size=8 -> 0 17
         get-buffer id=1 -> 4 0
         ident-partition name=1 -> 0 17",
    );
}

/// The scripts that the program is tried on are answered in the same way.
#[test]
fn the_scripts_with_expected_answers() {
    let folder = concat!(env!("CARGO_MANIFEST_DIR"), "/../../tests/examples");
    let mut scripts = 0;
    for entry in std::fs::read_dir(folder).unwrap() {
        let path = entry.unwrap().path();
        if path
            .extension()
            .is_some_and(|extension| extension == "script")
        {
            let read = |path: &std::path::Path| std::fs::read_to_string(path).unwrap();
            assert_output(&read(&path), &read(&path.with_extension("expected")));
            scripts += 1;
        }
    }
    assert!(scripts > 0);
}

#[test]
fn too_many_and_wrong_sizes() {
    let create = |index: u32| {
        let answer = if index < 8 {
            format!("0 {}", index + 1)
        } else {
            "5 0".to_string()
        };
        let (name, start) = (index + 1, 8 + 8 * index);
        format!("create-partition name={name} start={start} length=8 size=8 -> {answer}\n")
    };
    let lines: String = (0..9).map(create).collect();
    assert_answers(&(lines + "create-partition name=9 start=800 length=8 size=9 -> 8 0"));
}

#[test]
fn names_of_live_objects_are_refused() {
    assert_answers(
        "create-region name=5 start=4 length=1020 page=64 order=0 -> 0 1
         create-region name=6 start=1024 length=128 page=64 order=2 -> 0 2
         create-region name=5 start=2048 length=128 page=64 order=0 -> 3 0
         create-region name=6 start=0 length=0 page=0 order=1 -> 3 0
         create-partition name=5 start=4096 length=16 size=8 -> 0 1
         create-partition name=5 start=4112 length=16 size=8 -> 3 0
         create-partition name=5 start=4097 length=16 size=0 -> 3 0
         create-partition name=7 start=4112 length=16 size=8 -> 0 2
         delete-region id=1 -> 0 0
         create-region name=6 start=4 length=1020 page=64 order=0 -> 3 0
         create-region name=5 start=4 length=1020 page=64 order=0 -> 0 17
         delete-partition id=1 -> 0 0
         create-partition name=7 start=4096 length=16 size=8 -> 3 0
         create-partition name=6 start=4096 length=16 size=8 -> 0 17
         ident-region name=6 -> 0 2
         ident-partition name=6 -> 0 17
         ident-partition name=5 -> 3 0",
    );
}

#[test]
fn notices_are_written_to_the_byte() {
    let script = script_of(
        "create-region name=1 start=4 length=1020 page=64 order=0
         get id=1 size=960 align=0 wait=0 task=0 priority=0 ticks=0
         get id=1 size=640 align=0 wait=1 task=3 priority=1 ticks=0
         get id=1 size=64 align=0 wait=1 task=5 priority=1 ticks=0
         return id=1 address=64",
    );
    let output = "status=0\nvalue=1\nstatus=0\nvalue=64\nstatus=255\nvalue=0\n\
                  status=255\nvalue=0\nstatus=0\nvalue=0\n\
                  task=3\nwith=0\nvalue=64\ntask=5\nwith=0\nvalue=704\n";
    assert_output(&script, output);
}

/// Behind the value of a resize, and time-outs and grants of a tick alike.
#[test]
fn notices_of_a_resize_and_of_a_tick_are_written_to_the_byte() {
    let script = script_of(
        "create-region name=1 start=4 length=1020 page=64 order=0
         get id=1 size=960 align=0 wait=0 task=0 priority=0 ticks=0
         get id=1 size=64 align=0 wait=1 task=3 priority=1 ticks=0
         get id=1 size=960 align=0 wait=1 task=4 priority=1 ticks=1
         get id=1 size=64 align=0 wait=1 task=5 priority=1 ticks=0
         resize id=1 address=64 size=832
         tick",
    );
    let output = "status=0\nvalue=1\nstatus=0\nvalue=64\nstatus=255\nvalue=0\n\
                  status=255\nvalue=0\nstatus=255\nvalue=0\n\
                  status=0\nvalue=960\ntask=3\nwith=0\nvalue=896\n\
                  status=0\nvalue=0\ntask=4\nwith=6\nvalue=0\ntask=5\nwith=0\nvalue=960\n";
    assert_output(&script, output);
}

#[test]
fn resizes_and_ticks_serve() {
    assert_answers(
        "create-region name=1 start=4 length=1020 page=64 order=0 -> 0 1
         get id=1 size=960 align=0 wait=0 task=0 priority=0 ticks=0 -> 0 64
         get id=1 size=192 align=0 wait=1 task=3 priority=1 ticks=2 -> 255 0
         get id=1 size=64 align=0 wait=1 task=5 priority=1 ticks=0 -> 255 0
         get id=1 size=64 align=0 wait=1 task=6 priority=1 ticks=0 -> 255 0
         get id=1 size=64 align=0 wait=1 task=7 priority=1 ticks=0 -> 255 0
         resize id=1 address=64 size=900 -> 0 960
         resize id=1 address=64 size=961 -> 13 960
         resize id=1 address=64 size=832 -> 0 960
         tick -> 0 0
         tick -> 0 0 task 3 with 6 0 task 5 with 0 896 task 6 with 0 960
         resize id=1 address=64 size=768 -> 0 832 task 7 with 0 832
         tick -> 0 0",
    );
}

#[test]
fn regions_by_halves() {
    assert_answers(
        "create-region name=1 start=4 length=1020 page=64 order=2 -> 0 1
         info id=1 -> 0 1 512 512 0 0 0
         get id=1 size=513 align=0 wait=0 task=0 priority=0 ticks=0 -> 8 0
         get id=1 size=129 align=0 wait=0 task=0 priority=0 ticks=0 -> 0 64
         get id=1 size=1 align=0 wait=0 task=0 priority=0 ticks=0 -> 0 320
         size id=1 address=64 -> 0 256
         resize id=1 address=64 size=250 -> 0 256
         resize id=1 address=64 size=128 -> 13 256
         return id=1 address=64 -> 0 0
         get id=1 size=64 align=0 wait=0 task=0 priority=0 ticks=0 -> 0 384
         info id=1 -> 0 2 256 384 2 64 128
         get id=1 size=512 align=0 wait=1 task=3 priority=1 ticks=0 -> 255 0
         return id=1 address=384 -> 0 0
         delete-region id=1 -> 12 0
         return id=1 address=320 -> 0 0 task 3 with 0 64
         create-region name=2 start=1024 length=576 page=64 order=3 -> 0 2
         get id=2 size=300 align=0 wait=0 task=0 priority=0 ticks=0 -> 0 1088
         get id=2 size=64 align=0 wait=1 task=4 priority=9 ticks=0 -> 255 0
         get id=2 size=64 align=0 wait=1 task=5 priority=1 ticks=0 -> 255 0
         return id=2 address=1088 -> 0 0 task 5 with 0 1088 task 4 with 0 1152",
    );
}

#[test]
fn segments_on_wider_boundaries() {
    assert_answers(
        "create-region name=1 start=4 length=1020 page=64 order=0 -> 0 1
         get id=1 size=64 align=256 wait=0 task=0 priority=0 ticks=0 -> 0 256
         info id=1 -> 0 2 704 896 1 64 64
         get id=1 size=64 align=0 wait=0 task=0 priority=0 ticks=0 -> 0 64
         get id=1 size=1 align=96 wait=0 task=0 priority=0 ticks=0 -> 8 0
         get id=1 size=1 align=4160 wait=0 task=0 priority=0 ticks=0 -> 8 0
         get id=1 size=1 align=1024 wait=0 task=0 priority=0 ticks=0 -> 8 0
         get id=1 size=513 align=512 wait=1 task=3 priority=1 ticks=0 -> 8 0
         get id=1 size=704 align=320 wait=0 task=0 priority=0 ticks=0 -> 0 320
         get id=1 size=64 align=256 wait=0 task=0 priority=0 ticks=0 -> 13 0
         get id=1 size=64 align=256 wait=1 task=3 priority=1 ticks=1 -> 255 0
         get id=1 size=64 align=0 wait=1 task=5 priority=1 ticks=0 -> 0 128
         get id=1 size=128 align=64 wait=1 task=5 priority=1 ticks=0 -> 255 0
         return id=1 address=64 -> 0 0
         return id=1 address=128 -> 0 0
         tick -> 0 0 task 3 with 6 0 task 5 with 0 64
         get id=1 size=128 align=128 wait=1 task=6 priority=1 ticks=0 -> 255 0
         resize id=1 address=320 size=640 -> 0 704
         resize id=1 address=320 size=512 -> 0 640 task 6 with 0 896
         create-region name=2 start=2048 length=576 page=64 order=3 -> 0 2
         get id=2 size=64 align=128 wait=1 task=0 priority=0 ticks=0 -> 11 0
         get id=2 size=64 align=7 wait=0 task=0 priority=0 ticks=0 -> 11 0
         get id=2 size=0 align=7 wait=0 task=0 priority=0 ticks=0 -> 8 0
         get id=18 size=64 align=7 wait=0 task=0 priority=0 ticks=0 -> 4 0",
    );
}

#[test]
fn refused_information_is_written_to_the_byte() {
    let zeros = "value=0\n".repeat(6);
    assert_output("call=info\nid=1\n", &format!("status=4\n{zeros}"));
}

#[test]
fn numbers_that_are_bad() {
    let bad = [
        "",
        "00",
        "01",
        "0001",
        "4294967296",
        "4294967300",
        "42949672950",
        "9999999999",
        "18446744073709551616",
        "99999999999999999999",
        "-1",
        "-0",
        "+1",
        " 1",
        "1 ",
        "1\t",
        "1\r",
        "0x1",
        "1_000",
        "1,000",
        "1.0",
        "1e3",
        "a",
        "1a",
        "=1",
        "1=",
        "\u{661}",
        "1\0",
    ];
    for number in bad {
        assert_bad(&format!("call=ident-region\nname={number}\n"), 2);
    }
}

#[test]
fn numbers_that_are_good() {
    for number in ["0", "1", "9", "10", "2147483648", "4294967295"] {
        let script = format!("call=ident-region\nname={number}\n");
        assert_output(&script, "status=3\nvalue=0\n");
    }
}

#[test]
fn lines_that_are_bad() {
    for line in [
        "",
        "\r",
        " ",
        "call",
        "call=",
        "call=\r",
        "call=tick\r",
        "call=tick ",
        " call=tick",
        "call=tick=",
        "call =tick",
        "call= tick",
        "call:tick",
        "CALL=tick",
        "Call=tick",
        "call=Tick",
        "call=TICK",
        "call=ticks",
        "call=tic",
        "call=create",
        "call=get-",
        "call=get_buffer",
        "name=1",
        "tick",
        "=tick",
        "=",
        "call=tick\0",
        "#",
        "\u{feff}call=tick",
    ] {
        assert_bad(&format!("{line}\n"), 1);
        let script = format!("{REGION}{line}\n");
        assert_output(&script, &format!("{REGION_ANSWER}bad=7\n"));
    }
}

#[test]
fn bytes_that_are_no_text() {
    assert_eq!(run(b"call=\xff\xfe\n"), b"bad=1\n");
    assert_eq!(run(b"call=info\nid=1\xff\n"), b"bad=2\n");
    assert_eq!(run(b"\0"), b"bad=1\n");
}

#[test]
fn keys_that_are_wrong_or_out_of_order() {
    // Another key, the right one too early, and a key too many.
    assert_bad("call=info\nname=1\n", 2);
    assert_bad("call=info\nid1\n", 2);
    assert_bad("call=info\nid\n", 2);
    assert_bad("call=info\nid =1\n", 2);
    assert_bad("call=info\nidd=1\n", 2);
    assert_bad("call=info\nID=1\n", 2);
    assert_bad("call=return\naddress=64\nid=1\n", 2);
    assert_bad(
        "call=create-region\nname=1\nlength=1020\nstart=4\npage=64\norder=0\n",
        3,
    );
    assert_bad(
        "call=create-partition\nname=1\nstart=4\nlength=8\npage=8\n",
        5,
    );
    assert_bad("call=info\ncall=tick\n", 2);
    assert_output("call=tick\nid=1\n", "status=0\nvalue=0\nbad=2\n");
    assert_output(
        "call=ident-region\nname=1\nname=1\n",
        "status=3\nvalue=0\nbad=3\n",
    );
}

#[test]
fn order_is_0_to_3_and_wait_0_or_1() {
    for order in [
        "4",
        "5",
        "00",
        "01",
        "03",
        "10",
        "256",
        "4294967295",
        "",
        "true",
    ] {
        let script = REGION.replace("order=0", &format!("order={order}"));
        assert_bad(&script, 6);
    }
    for order in 0..4 {
        let script = REGION.replace("order=0", &format!("order={order}"));
        assert_output(&script, REGION_ANSWER);
    }
    for wait in ["2", "00", "01", "10", "4294967295", "", "yes"] {
        let get = get_of("0", wait);
        assert_bad(&get, 5);
        assert_output(
            &format!("{REGION}{get}"),
            &format!("{REGION_ANSWER}bad=11\n"),
        );
    }
    for wait in ["0", "1"] {
        assert_output(&get_of("0", wait), "status=4\nvalue=0\n");
    }
}

#[test]
fn align_comes_behind_size_and_is_any_number() {
    for align in [
        "",
        "00",
        "064",
        "4294967296",
        "-1",
        "+64",
        " 64",
        "64 ",
        "0x40",
        "page",
    ] {
        assert_bad(&get_of(align, "0"), 4);
    }
    for align in ["0", "1", "64", "4096", "4097", "4294967295"] {
        assert_output(&get_of(align, "0"), "status=4\nvalue=0\n");
    }
    // Without it, behind the next key, before size, and twice.
    let get = get_of("0", "0");
    assert_bad(&get.replace("align=0\n", ""), 4);
    assert_bad(&get.replace("align=0\nwait=0\n", "wait=0\nalign=0\n"), 4);
    assert_bad(&get.replace("size=1\nalign=0\n", "align=0\nsize=1\n"), 3);
    assert_bad(&get.replace("align=0\n", "align=0\nalign=0\n"), 5);
    for key in ["alignment", "Align", "alig", "aligned"] {
        assert_bad(&get.replace("align=", &format!("{key}=")), 4);
    }
    // Only a get has it.
    assert_bad("call=resize\nid=1\naddress=64\nalign=0\nsize=1\n", 4);
    assert_output(
        "call=resize\nid=1\naddress=64\nsize=1\nalign=0\n",
        "status=4\nvalue=0\nbad=5\n",
    );
}

#[test]
fn a_call_with_a_bad_last_key_does_not_run() {
    let script = format!("{REGION}call=delete-region\nid=01\n{REGION}");
    assert_output(&script, &format!("{REGION_ANSWER}bad=8\n"));
}

#[test]
fn a_line_of_64_bytes_and_one_of_65() {
    // No good line is that long: both are bad, and nothing after them is read.
    for length in [63, 64, 65, 66, 1_000, 20_000] {
        let line = format!("call={}\n", "a".repeat(length - 6));
        assert_eq!(line.len(), length);
        assert_bad(&line, 1);
        let line = format!("name={}\n", "1".repeat(length - 6));
        assert_eq!(line.len(), length);
        assert_bad(&format!("call=ident-region\n{line}call=tick\n"), 2);
    }
}

#[test]
fn a_last_line_without_its_newline_is_bad() {
    assert_bad("call=tick", 1);
    assert_bad("c", 1);
    assert_output("call=tick\ncall=tick", "status=0\nvalue=0\nbad=2\n");
    assert_bad("call=info\nid=1", 2);
    assert_output(REGION.trim_end(), "bad=6\n");
}

#[test]
fn a_missing_line_has_the_next_number() {
    assert_bad("call=info\n", 2);
    assert_bad("call=get\nid=1\nsize=1\n", 4);
    assert_bad("call=get\nid=1\nsize=1\nalign=0\n", 5);
    for lines in 1..6 {
        let script: String = REGION.split_inclusive('\n').take(lines).collect();
        assert_bad(&script, lines as u32 + 1);
    }
    assert_output(
        &format!("{REGION}call=info\n"),
        &format!("{REGION_ANSWER}bad=8\n"),
    );
}

#[test]
fn carriage_returns_are_bad() {
    assert_bad(&REGION.replace('\n', "\r\n"), 1);
    assert_bad(&REGION.replace('\n', "\r"), 1);
    assert_bad(&REGION.replace("page=64", "page=64\r"), 5);
}

/// A good script of exactly this many bytes, and how many calls it has.
fn script_of_length(length: usize) -> (String, usize) {
    let tick = "call=tick\n";
    let ticks = (length - 25) / tick.len();
    let rest = length - ticks * tick.len();
    let last = format!("call=ident-region\nname={}\n", "1".repeat(rest - 24));
    (tick.repeat(ticks) + &last, ticks + 1)
}

#[test]
fn scripts_at_the_limit() {
    for length in [32_766, 32_767, 32_768] {
        let (script, calls) = script_of_length(length);
        assert_eq!(script.len(), length);
        let output = output_of(&script);
        assert_eq!(output.matches("status=").count(), calls);
        assert!(output.ends_with("status=3\nvalue=0\n"));
    }
    for length in [32_769, 32_770, 70_000] {
        let (script, _) = script_of_length(length);
        assert_eq!(script.len(), length);
        assert_bad(&script, 0);
    }
}

#[test]
fn too_long_is_said_before_any_bad_line() {
    assert_bad(&"x".repeat(32_768), 1);
    assert_bad(&"x".repeat(32_769), 0);
    assert_bad(&"\n".repeat(32_768), 1);
    assert_bad(&"\n".repeat(32_769), 0);
}
