//! Two line tables as rows beside rows, for a page.
use crate::json;
use crate::origins::{Instructions, Placed, is_shown, runs};
use sillgarland::{Code, Records};

/// What the second number of a row says.
const SAME: i64 = 0;
const DIFFERENT: i64 = 1;
const LEFT_OUT: i64 = 2;
/// The origin where a side has no such instruction.
const NO_INSTRUCTION: i64 = -1;

/// Twelve numbers a row: how many instructions it has, whether both sides are the same, and of each side its origin, line, column,
/// lines to its end line, and end column. Where rows are left out the third number says how many.
pub fn beside(codes: [Code; 2]) -> String {
    let mut records = [Records::default(), Records::default()];
    let [one, other] = &mut records;
    let sides = [Instructions::of(&codes[0], one), Instructions::of(&codes[1], other)];
    let all = sides[0].all.max(sides[1].all);
    let padded = |side: usize| sides[side].each().map(Some).chain(std::iter::repeat(None)).take(all);
    let rows = || runs(padded(0).zip(padded(1))).enumerate();
    let (count, apart) = (rows().count(), rows().find(|(_, (_, (left, right)))| left != right));
    let apart = apart.map_or(count, |(at, _)| at);
    let (mut shown, mut left_out) = (Vec::new(), (0, 0));
    for (at, (instructions, (left, right))) in rows() {
        if !is_shown(at, count, apart) {
            left_out = (left_out.0 + instructions as i64, left_out.1 + 1);
            continue;
        }
        if let (hidden @ 1.., rows) = std::mem::take(&mut left_out) {
            shown.extend([hidden, LEFT_OUT, rows].into_iter().chain([0; 9]));
        }
        shown.extend([instructions as i64, if left == right { SAME } else { DIFFERENT }]);
        shown.extend(numbers(left).into_iter().chain(numbers(right)));
    }
    json::list(shown)
}

fn numbers(placed: Option<Placed>) -> [i64; 5] {
    match placed {
        None => [NO_INSTRUCTION, 0, 0, 0, 0],
        Some((origin, [line, column, end_line, end_column])) => {
            [origin as i64, line, column, end_line - line, end_column]
        }
    }
}
