//! Counts of the single events of the wide terminal.

use super::super::{Group, mixture, mixtures};
use super::pairs::{IMAGES, PairCoverage, images_of, is_short};
use super::{
    REFUSING, SELECTIONS, SIDES, event_name, in_the_way, reads_of_both, refusing, see_read_of_both,
    see_test_mode_to_both, selection_name, test_mode_to_both,
};
use crate::cases::wide::WideSingle;
use crate::command::TEST_MODE;
use crate::event::{Event, meaning};
use crate::refusal::{Refusal, TAKEN};
use crate::registers::Registers;
use crate::wide::{Selection, Side};

/// The four events.
const EVENTS: [&str; 4] = ["command", "write", "read", "reset pin"];

/// What a byte selects.
const SELECTED: [&str; 4] = [SELECTIONS[0], SELECTIONS[1], SELECTIONS[2], "none selected"];

/// What a chip that is not selected can hold.
const NOT_SELECTED: [&str; 4] = [
    "nothing",
    "code awaited",
    "column above 131",
    "image out of range",
];

/// The numbers of two chips that both refuse, left and right.
const NUMBERS_OF_BOTH: [&str; 14] = [
    "3 and 3",
    "3 and 5",
    "4 and 4",
    "4 and 5",
    "5 and 3",
    "5 and 4",
    "5 and 5",
    "5 and 15",
    "6 and 6",
    "6 and 7",
    "7 and 6",
    "7 and 7",
    "15 and 5",
    "15 and 15",
];

/// To whom a command taken by both is n.
const N_TO: [&str; 4] = ["neither", "the left", "the right", "both"];

/// The counts of single events.
#[derive(Clone, PartialEq, Eq, Debug)]
pub struct WideEventCoverage {
    /// By kind of event.
    numbers: [Group; 4],
    selections: Group,
    pairs: PairCoverage,
    images: Group,
    taken: Group,
    refused: Group,
    numbers_of_both: Group,
    not_selected: Group,
    reads_of_both: Group,
    n_to: Group,
    test_mode_to_both: Group,
}

impl WideEventCoverage {
    /// Nothing reached yet.
    pub fn new() -> WideEventCoverage {
        let [left_alone, right_alone, ..] = REFUSING;
        let refused = [
            mixtures(&[&["command", "write"], &REFUSING]),
            mixtures(&[&["read"], &[left_alone, right_alone]]),
        ];
        let taken = [
            mixtures(&[&["command", "write", "reset pin"], &SELECTIONS]),
            mixtures(&[&["read", "dummy read"], &SELECTIONS[..2]]),
        ];
        WideEventCoverage {
            numbers: [
                Group::numbers("numbers of wide commands", &[0, 1, 2, 3, 4, 5, 13, 15]),
                Group::numbers("numbers of wide writes", &[0, 1, 2, 6, 7, 13]),
                Group::numbers("numbers of wide reads", &[0, 1, 2, 6, 7, 13, 14]),
                Group::numbers("numbers of wide resets", &[0, 1, 13]),
            ],
            selections: Group::hex_bytes("wide events, selections"),
            pairs: PairCoverage::new([
                "wide events, lengths",
                "wide events, too short",
                "wide events, images",
            ]),
            images: Group::new(
                "wide events, images under selections",
                mixtures(&[&EVENTS, &SELECTED, &IMAGES]),
            ),
            taken: Group::new("wide events taken", taken.concat()),
            refused: Group::new("wide events refused", refused.concat()),
            numbers_of_both: Group::new("wide events refused by both", NUMBERS_OF_BOTH),
            not_selected: Group::new(
                "wide events, the chip not selected",
                mixtures(&[&SIDES, &EVENTS, &NOT_SELECTED]),
            ),
            reads_of_both: reads_of_both("wide events, reads of both"),
            n_to: Group::new("wide commands taken by both, n to", N_TO),
            test_mode_to_both: test_mode_to_both("wide events, test mode to both"),
        }
    }

    /// Every group.
    pub fn groups(&self) -> Vec<&Group> {
        let mut groups: Vec<&Group> = self.numbers.iter().collect();
        groups.push(&self.selections);
        groups.extend(self.pairs.groups());
        groups.extend([
            &self.images,
            &self.taken,
            &self.refused,
            &self.numbers_of_both,
            &self.not_selected,
            &self.reads_of_both,
            &self.n_to,
            &self.test_mode_to_both,
        ]);
        groups
    }

    /// Counts what a single event reaches.
    pub fn see(&mut self, single: &WideSingle) {
        let name = event_name(single.event);
        let kind = EVENTS.iter().position(|event| *event == name);
        self.numbers[kind.expect("every event has a name")].hit(single.answer.number);
        self.selections.hit(single.selection);
        self.pairs.see(&single.pair);
        if is_short(&single.pair).contains(&true) {
            return;
        }
        let selection = Selection::from_byte(single.selection);
        let selected = selection.map_or(SELECTED[3], selection_name);
        self.images
            .hit_label(&mixture(&[name, selected, images_of(&single.pair)]));
        let Ok(selection) = selection else {
            return;
        };
        if single.answer.number == TAKEN {
            let name = if single.answer.dummy {
                "dummy read"
            } else {
                name
            };
            self.taken
                .hit_label(&mixture(&[name, selection_name(selection)]));
        }
        let registers = single.pair.each_ref().map(|buffers| {
            let image = buffers.state.first_chunk();
            image.and_then(Registers::from_image)
        });
        self.see_not_selected(selection, name, registers);
        if let [Some(left), Some(right)] = registers {
            self.see_chips(single, selection, [left, right]);
        }
    }

    /// Counts what the chip holds that is not selected.
    fn see_not_selected(
        &mut self,
        selection: Selection,
        event: &str,
        registers: [Option<Registers>; 2],
    ) {
        for side in Side::ALL {
            if !selection.sides().contains(&side) {
                let held = registers[side.index()].map_or(NOT_SELECTED[3], in_the_way);
                self.not_selected
                    .hit_label(&mixture(&[SIDES[side.index()], event, held]));
            }
        }
    }

    /// Counts what legal chips do with the event.
    fn see_chips(&mut self, single: &WideSingle, selection: Selection, registers: [Registers; 2]) {
        let name = event_name(single.event);
        if (single.event, selection) == (Event::Read, Selection::Both) {
            see_read_of_both(&mut self.reads_of_both, registers);
            return;
        }
        let numbers = Side::ALL.map(|side| {
            let memory = single.pair[side.index()].memory.first_chunk();
            let memory = memory.expect("memories that are long enough");
            let obeyed = meaning(registers[side.index()], memory, single.event);
            obeyed.map_or_else(Refusal::number, |_| TAKEN)
        });
        if let Some(who) = refusing(selection, numbers) {
            self.refused.hit_label(&mixture(&[name, who]));
        }
        let [left, right] = numbers;
        if selection == Selection::Both && left != TAKEN && right != TAKEN {
            self.numbers_of_both
                .hit_label(&format!("{left} and {right}"));
        }
        if let Event::Command(byte) = single.event
            && TEST_MODE.contains(&byte)
            && selection == Selection::Both
        {
            see_test_mode_to_both(&mut self.test_mode_to_both, numbers);
        }
        if selection == Selection::Both && numbers == [TAKEN; 2] && name == "command" {
            let [left, right] = registers.map(|registers| usize::from(registers.awaited.is_some()));
            self.n_to.hit(left + 2 * right);
        }
    }
}
