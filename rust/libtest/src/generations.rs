//! Calls with ids of every generation, on a record that no list of calls has
//! the time to reach.

use crate::call::Library;
use crate::compare::Comparison;
use author::{Author, Random, Style};
use directives::words::*;
use directives::Directive;
use model::Model;

/// The generations of the region and the partition in the first slots.
const OF_REGION: u32 = 40_000;
const OF_PARTITION: u32 = 25_536;

/// The directives that name an object: of regions, and of partitions.
fn directives_with_id() -> [Vec<Directive>; 2] {
    let all = Directive::ALL.iter().copied();
    let with_id = all.filter(|of| of.has_id());
    let (of_partitions, of_regions) = with_id.partition(|of| of.is_of_partitions());
    [of_regions, of_partitions]
}

impl<L: Library> Comparison<'_, L> {
    /// Names a region and a partition by ids of every generation that there is,
    /// and by ids that differ from the right one in a bit past those. Each
    /// generation has one directive of each kind, in turn.
    pub fn generations(&mut self) -> Result<(), String> {
        let mut random = Random::for_list(0, 0);
        let model = self.generations_start(&mut random)?;
        // But for the id, the arguments are such that the call could be done.
        let style = Style {
            odd: 0,
            ..Style::default()
        };
        let kinds = directives_with_id();
        let past = (16..28).flat_map(|bit| [OF_REGION | 1 << bit, OF_PARTITION | 1 << bit]);
        for (turn, generation) in (0..=GENERATIONS).chain(past).enumerate() {
            for directives in &kinds {
                let directive = directives[turn % directives.len()];
                let mut author = Author {
                    random: &mut random,
                    style: &style,
                    model: &model,
                };
                let call = author.call_of(directive).with_id(id_of(0, generation));
                self.step(&mut random, &mut model.clone(), &call)
                    .map_err(|problem| format!("Generation {generation}:\n{problem}"))?;
            }
        }
        Ok(())
    }

    /// A region and a partition, and something held of each.
    fn generations_start(&mut self, random: &mut Random) -> Result<Model, String> {
        let mut record = [0; RECORD_WORDS];
        record[region_at(0) + GENERATION] = OF_REGION;
        record[partition_at(0) + GENERATION] = OF_PARTITION;
        let mut model = Model::from_record(&record, &[0; 64]);
        for (directive, arguments) in [
            (Directive::CreateRegion, &[1, 4, 124, 8, 0][..]),
            (Directive::CreatePartition, &[2, 128, 64, 16]),
            (Directive::Get, &[id_of(0, OF_REGION), 8, 0, 0, 0, 0, 0]),
            (Directive::GetBuffer, &[id_of(0, OF_PARTITION)]),
        ] {
            self.step(random, &mut model, &directive.call(arguments))?;
        }
        Ok(model)
    }
}
