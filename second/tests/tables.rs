//! Tables: an example byte for byte, each refusal on both sides of its limit, and which one
//! comes first where several are due.

mod common;

use common::{lines_replaced, network_text, TRIANGLE};
use second::lengths::LONGEST_TABLE_TEXT;
use second::texts::COST_LIMIT;
use second::{
    check_table, plan, plan_table, read_table, table_network, write_table, Refusal, Span, Table,
};

/// Five vertices, one edge between any two of them: as many spans as edges.
fn complete() -> Table {
    let pairs = (0..5).flat_map(|low| (low + 1..5).map(move |high| (low, high)));
    let spans = pairs.map(|(low, high)| Span {
        low,
        high,
        weight: 1,
        cost: 3,
    });
    Table {
        vertices: 5,
        reserved: 9,
        spans: spans.collect(),
    }
}

/// The triangle with some of its lines replaced.
fn triangle_with(lines: &[(usize, &str)]) -> Vec<u8> {
    lines_replaced(TRIANGLE, lines)
}

/// All three services refuse the text; 6 and 7 are none of the last one's.
fn assert_refused(text: &[u8], refusal: Refusal) {
    assert_eq!(check_table(text), Err(refusal));
    assert_eq!(plan_table(text), Err(refusal));
    match refusal {
        6 | 7 => assert!(table_network(text).is_ok()),
        _ => assert_eq!(table_network(text), Err(refusal)),
    }
}

fn assert_accepted(text: &[u8]) {
    assert_eq!(check_table(text), Ok(()));
    assert_eq!(plan_table(text), plan(&table_network(text).unwrap()));
    assert!(plan_table(text).is_ok());
}

#[test]
fn the_triangle() {
    let text = TRIANGLE.as_bytes();
    assert_accepted(text);
    let ends = [(0, 1), (0, 1), (0, 2), (0, 2), (1, 2), (1, 2)];
    let network = network_text(3, 0, &ends, &[7, 7, 1, 1, 6, 6]);
    assert_eq!(table_network(text), Ok(network));
    let plan = plan_table(text).unwrap();
    assert_eq!(plan.chain, b"0300010004000500010000000000000001\n040003\n");
    assert_eq!(
        plan.kept,
        b"050001\n050002\n050005\n06000000000000000e0000000000000015\n"
    );
    let table = read_table(text).unwrap();
    assert_eq!(write_table(&table), Ok(text.to_vec()));
}

#[test]
fn heads_at_their_limits() {
    assert_refused(b"08000100000001\n0900000001020000000000000007\n", 2);
    assert_refused(b"08010100000001\n0900000001020000000000000007\n", 2);
    assert_accepted(b"08000200000001\n0900000001040000000000000007\n");
    assert_accepted(b"08000200030001\n0900000001040000000000000007\n");
    assert_refused(b"08000200040001\n0900000001040000000000000007\n", 3);
    assert_accepted(&triangle_with(&[(0, "08000300050003")]));
    assert_refused(&triangle_with(&[(0, "08000300060003")]), 3);
}

#[test]
fn the_largest_table() {
    let pairs = (0..256).flat_map(|low| [(low, (low + 1) % 256), (low, (low + 2) % 256)]);
    let mut spans: Vec<Span> = pairs
        .map(|(a, b)| Span {
            low: a.min(b),
            high: a.max(b),
            weight: 1,
            cost: -COST_LIMIT,
        })
        .collect();
    spans.sort_by_key(|span| (span.low, span.high));
    let mut table = Table {
        vertices: 256,
        reserved: 511,
        spans,
    };
    let text = write_table(&table).unwrap();
    assert_eq!(text.len(), LONGEST_TABLE_TEXT);
    assert_accepted(&text);
    // Weights may total 2,048 before that is refused.
    for span in &mut table.spans {
        span.weight = 4;
    }
    assert_eq!(write_table(&table), Err(16));
    let heavy: Vec<u8> = text
        .split_inclusive(|&byte| byte == b'\n')
        .flat_map(|line| {
            let mut line = line.to_vec();
            if line.starts_with(b"09") {
                line[11] = b'4';
            }
            line
        })
        .collect();
    assert_refused(&heavy, 16);
    assert_refused(&[&heavy[..], b"\n"].concat(), 1);
}

#[test]
fn as_many_spans_as_edges_and_one_more() {
    let mut table = complete();
    let text = write_table(&table).unwrap();
    assert_accepted(&text);
    // The head alone settles it, whatever follows.
    for count in ["000b", "0010", "ffff"] {
        let head = format!("0800050009{count}\n");
        assert_refused(head.as_bytes(), 16);
        assert_refused(&[head.as_bytes(), &text[15..]].concat(), 16);
    }
    table.spans.push(table.spans[9]);
    assert_eq!(write_table(&table), Err(16));
    assert_refused(b"0800050009000a\n", 1);
}

#[test]
fn weights_at_their_limits() {
    let with = |weight: &str| format!("08000200000001\n0900000001{weight}0000000000000007\n");
    for weight in ["00", "05", "06", "80", "ff"] {
        assert_refused(with(weight).as_bytes(), 15);
    }
    assert_accepted(with("04").as_bytes());
    for weight in ["01", "02", "03"] {
        assert_refused(with(weight).as_bytes(), 16);
    }
    // A span of each weight; the degrees are wrong.
    let every = b"08000500000004\n0900000001010000000000000000\n0900000002020000000000000000\n\
        0900000003030000000000000000\n0900000004040000000000000000\n";
    assert_refused(every, 6);
    let weights: Vec<u8> = read_table(every)
        .unwrap()
        .spans
        .iter()
        .map(|span| span.weight)
        .collect();
    assert_eq!(weights, [1, 2, 3, 4]);
}

#[test]
fn totals_on_both_sides() {
    let lighter = triangle_with(&[(2, "0900000002010000000000000001")]);
    assert_refused(&lighter, 16);
    let heavier = triangle_with(&[(2, "0900000002030000000000000001")]);
    assert_refused(&heavier, 16);
    assert_refused(b"08000300000000\n", 16);
    assert_refused(b"08000300000000\n\n", 1);
    // The right total, with wrong degrees.
    let uneven = triangle_with(&[
        (1, "0900000001030000000000000007"),
        (2, "0900000002010000000000000001"),
    ]);
    assert_refused(&uneven, 6);
}

#[test]
fn pairs_rise() {
    let with = |second: &str, third: &str| triangle_with(&[(2, second), (3, third)]);
    let [near, far, across] = [
        "0900000001020000000000000007",
        "0900000002020000000000000001",
        "0900010002020000000000000006",
    ];
    assert_accepted(&with(far, across));
    // Equal to the one before.
    assert_refused(&with(near, across), 15);
    assert_refused(&with(far, far), 15);
    // Below it by the higher end, by the lower end, and by the lower end with a higher one above.
    assert_refused(&with(far, near), 15);
    assert_refused(&with(across, far), 15);
    let mut table = complete();
    let text = write_table(&table).unwrap();
    let mut lines: Vec<&[u8]> = text.split_inclusive(|&byte| byte == b'\n').collect();
    lines.swap(4, 5);
    assert!(lines[4].starts_with(b"0900010002") && lines[5].starts_with(b"0900000004"));
    assert_refused(&lines.concat(), 15);
    table.spans.swap(3, 4);
    assert_eq!(write_table(&table), Err(15));
}

#[test]
fn ends_and_costs_at_their_limits() {
    assert_refused(&triangle_with(&[(3, "0900010003020000000000000006")]), 4);
    assert_refused(&triangle_with(&[(3, "0900020002020000000000000006")]), 4);
    assert_refused(&triangle_with(&[(3, "0900020001020000000000000006")]), 4);
    assert_refused(&triangle_with(&[(3, "090001ffff020000000000000006")]), 4);
    assert_refused(&triangle_with(&[(1, "0900000000020000000000000007")]), 4);
    let with_cost = |cost: &str| triangle_with(&[(2, &["090000000202", cost].concat())]);
    // 1,000,000,000,000 on both sides of zero, and one more.
    assert_accepted(&with_cost("000000e8d4a51000"));
    assert_refused(&with_cost("000000e8d4a51001"), 5);
    assert_accepted(&with_cost("ffffff172b5af000"));
    assert_refused(&with_cost("ffffff172b5aefff"), 5);
}

#[test]
fn degrees_then_cuts() {
    // Threefold spans with one edge each way across: a cut of two.
    let across = b"08000400000004\n0900000001030000000000000000\n0900000002010000000000000000\n\
        0900010003010000000000000000\n0900020003030000000000000000\n";
    assert_refused(across, 7);
    // Two islands of weight four.
    let islands = b"08000400000002\n0900000001040000000000000000\n0900020003040000000000000000\n";
    assert_refused(islands, 7);
    // Uneven islands: 6 beats 7.
    let uneven = b"08000400000003\n0900000001040000000000000000\n0900000002010000000000000000\n\
        0900020003030000000000000000\n";
    assert_refused(uneven, 6);
}

#[test]
fn the_head_before_everything_else() {
    assert_refused(b"", 1);
    assert_refused(b"\n", 1);
    assert_refused(b"08000300000003", 1);
    assert_refused(b"080001ffffffff\njunk", 2);
    assert_refused(b"080003ffffffff\njunk", 3);
    assert_refused(b"0800030000ffff\njunk", 16);
    assert_refused(b"0800030000ffff", 1);
    assert_refused(b"0100030000\n", 1);
    assert_refused(b"080003000003\n", 1);
    assert_refused(b"0800030000000300\n", 1);
    // A table that ends behind its head.
    assert_refused(b"08000300000003\n", 1);
}

#[test]
fn span_frames_in_order() {
    // 4 before 15 before 5, and each before the form of the next frame.
    let broken = (2, "09");
    let ends_weight_cost = "0900010001ff7fffffffffffffff";
    assert_refused(&triangle_with(&[(1, ends_weight_cost), broken]), 4);
    let weight_cost = "0900000001057fffffffffffffff";
    assert_refused(&triangle_with(&[(1, weight_cost), broken]), 15);
    let cost = "0900000001047fffffffffffffff";
    assert_refused(&triangle_with(&[(1, cost), broken]), 5);
    assert_refused(&triangle_with(&[broken]), 1);
    // An earlier pair, wrong ends and a wrong cost.
    let wrong_ends = (3, "0900000000027fffffffffffffff");
    assert_refused(&triangle_with(&[wrong_ends]), 4);
    let pair_cost = (3, "0900000001027fffffffffffffff");
    assert_refused(&triangle_with(&[pair_cost]), 15);
    // The form of a frame before its numbers.
    let text = triangle_with(&[(3, "0900010002ff7fffffffffffffff")]);
    assert_refused(&text, 15);
    assert_refused(&text[..text.len() - 1], 1);
    for broken in [
        "",
        "090001000202000000000000006",
        "09000100020200000000000006",
        "090001000202000000000000000600",
        "090001000202000000000000000A",
        "0900010002020000000000000006\r",
        "0800010002020000000000000006",
        "020002000100020000000000000006",
    ] {
        assert_refused(&triangle_with(&[(3, broken)]), 1);
    }
}

#[test]
fn bytes_left_over_before_totals_and_totals_before_degrees() {
    let text = TRIANGLE.as_bytes();
    for left_over in [
        &b"\n"[..],
        b"0",
        b"\r\n",
        b"\0",
        b"0900010002020000000000000006\n",
        text,
    ] {
        assert_refused(&[text, left_over].concat(), 1);
        let lighter = triangle_with(&[(2, "0900000002010000000000000001")]);
        assert_refused(&[&lighter[..], left_over].concat(), 1);
    }
    // A wrong total beats the wrong degrees that come with it.
    assert_refused(&triangle_with(&[(2, "0900000002010000000000000001")]), 16);
    // A span that the head doesn't count is left over; one that it counts too much is missing.
    assert_refused(&triangle_with(&[(0, "08000300000002")]), 1);
    assert_refused(&triangle_with(&[(0, "08000300000004")]), 1);
}

#[test]
fn the_writer_refuses_in_the_readers_order() {
    let whole = complete();
    let changed = |change: &dyn Fn(&mut Table)| {
        let mut table = whole.clone();
        change(&mut table);
        write_table(&table)
    };
    assert!(changed(&|_| ()).is_ok());
    let crowd = |table: &mut Table| table.spans.push(table.spans[0]);
    for vertices in [0, 1, 257, usize::MAX] {
        let count = |table: &mut Table| {
            table.vertices = vertices;
            table.reserved = usize::MAX;
            crowd(table);
        };
        assert_eq!(changed(&count), Err(2));
    }
    let reserve = |table: &mut Table| {
        table.reserved = 10;
        crowd(table);
    };
    assert_eq!(changed(&reserve), Err(3));
    let crowd_ends = |table: &mut Table| {
        crowd(table);
        table.spans[0].high = 5;
    };
    assert_eq!(changed(&crowd_ends), Err(16));
    let cost = |table: &mut Table| {
        table.spans[4].cost = COST_LIMIT + 1;
        table.spans.pop();
    };
    assert_eq!(changed(&cost), Err(5));
    for weight in [0, 5, 255] {
        let weigh = |table: &mut Table| {
            cost(table);
            table.spans[4].weight = weight;
        };
        assert_eq!(changed(&weigh), Err(15));
    }
    let repeat = |table: &mut Table| {
        cost(table);
        table.spans[4].high = table.spans[3].high;
        table.spans[4].low = table.spans[3].low;
    };
    assert_eq!(changed(&repeat), Err(15));
    let swap = |table: &mut Table| {
        cost(table);
        table.spans[4].weight = 0;
        table.spans[4].high = table.spans[4].low;
    };
    assert_eq!(changed(&swap), Err(4));
    let lighten = |table: &mut Table| {
        table.spans.pop();
    };
    assert_eq!(changed(&lighten), Err(16));
    let weigh = |table: &mut Table| table.spans[9].weight = 2;
    assert_eq!(changed(&weigh), Err(16));
}
