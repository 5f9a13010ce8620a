//! Damaged records of every kind ("The stream record"), and what each call
//! makes of them.

mod common;

use common::*;
use second::{arrival, reset, tick, Stream, Ticked};

/// Name, record, and whether its settings are out of range.
fn damaged() -> Vec<(&'static str, Stream, bool)> {
    let v = running(Stream::VECTOR, 4, 3, 10, 0b0101);
    let m = running(Stream::MATCH, 4, 3, 10, 0);
    let f = fresh(Stream::VECTOR, 4, 3);
    let g = fresh(Stream::MATCH, 4, 3);
    vec![
        ("rule 0", Stream { rule: 0, ..f }, true),
        ("rule 4", Stream { rule: 4, ..f }, true),
        ("rule 255", Stream { rule: 255, ..v }, true),
        ("rule 4, match", Stream { rule: 4, ..m }, true),
        ("L 0", Stream { window: 0, ..f }, true),
        ("L 1", Stream { window: 1, ..f }, true),
        ("L 1, match", Stream { window: 1, ..m }, true),
        ("L 513", Stream { window: 513, ..v }, true),
        ("L 65535", Stream { window: 65535, ..v }, true),
        ("L 513, match", Stream { window: 513, ..m }, true),
        ("R 0", Stream { reset_time: 0, ..f }, true),
        ("R 0, running", Stream { reset_time: 0, ..v }, true),
        ("remaining above R", Stream { remaining: 4, ..v }, false),
        (
            "remaining far above R",
            Stream {
                remaining: 65535,
                ..m
            },
            false,
        ),
        ("running, remaining 0", Stream { remaining: 0, ..v }, false),
        (
            "match running, remaining 0",
            Stream { remaining: 0, ..m },
            false,
        ),
        ("take-any, remaining 1", Stream { remaining: 1, ..f }, false),
        ("take-any, remaining R", Stream { remaining: 3, ..g }, false),
        ("take-any, anchor 0", Stream { anchor: 0, ..f }, false),
        (
            "take-any, anchor 65534",
            Stream { anchor: 65534, ..g },
            false,
        ),
        (
            "take-any, history",
            Stream {
                history: low(1),
                ..f
            },
            false,
        ),
        (
            "take-any, high history",
            Stream {
                history: low(1 << 63),
                ..g
            },
            false,
        ),
        (
            "bit 0 clear",
            Stream {
                history: low(0b0100),
                ..v
            },
            false,
        ),
        (
            "history zero",
            Stream {
                history: low(0),
                ..v
            },
            false,
        ),
        (
            "bit at L",
            Stream {
                history: low(0b1_0001),
                ..v
            },
            false,
        ),
        (
            "bit 63",
            Stream {
                history: low(1 | 1 << 63),
                ..v
            },
            false,
        ),
        (
            "match with bit 0",
            Stream {
                history: low(1),
                ..m
            },
            false,
        ),
        (
            "match with bit 63",
            Stream {
                history: low(1 << 63),
                ..m
            },
            false,
        ),
        ("n = L", Stream { early: 4, ..v }, false),
        ("n above L", Stream { early: 5, ..v }, false),
        ("n 65535", Stream { early: 65535, ..v }, false),
        // The bits of v are 2 and 0, for n of 1 and 3.
        ("n 2, bit 1 clear", Stream { early: 2, ..v }, false),
        (
            "n 1, bit 2 clear",
            Stream {
                history: low(0b1011),
                early: 1,
                ..v
            },
            false,
        ),
        (
            "L 64, n 64",
            Stream {
                window: 64,
                history: low(u64::MAX),
                early: 64,
                ..v
            },
            false,
        ),
        (
            "L 64, n 1, bit 62 clear",
            Stream {
                window: 64,
                history: low(u64::MAX ^ 1 << 62),
                early: 1,
                ..v
            },
            false,
        ),
        ("match with n 1", Stream { early: 1, ..m }, false),
        ("match with n L - 1", Stream { early: 3, ..m }, false),
        ("match with n L", Stream { early: 4, ..m }, false),
        ("take-any, n 1", Stream { early: 1, ..f }, false),
        ("take-any, n L - 1", Stream { early: 3, ..f }, false),
        ("take-any, match, n 3", Stream { early: 3, ..g }, false),
        (
            "L 64, bit 64",
            Stream {
                window: 64,
                ..with_places(v, [0, 64])
            },
            false,
        ),
        (
            "L 65, bit 65",
            Stream {
                window: 65,
                ..with_places(v, [0, 65])
            },
            false,
        ),
        (
            "L 128, bit 128",
            Stream {
                window: 128,
                ..with_places(v, [0, 128])
            },
            false,
        ),
        (
            "L 511, bit 511",
            Stream {
                window: 511,
                ..with_places(v, [0, 511])
            },
            false,
        ),
        ("L 4, bit 64", with_places(v, [0, 64]), false),
        ("L 4, bit 511", with_places(v, [0, 511]), false),
        (
            "L 512, bit 0 clear",
            Stream {
                window: 512,
                ..with_places(v, 1..512)
            },
            false,
        ),
        (
            "L 512, n 512",
            Stream {
                window: 512,
                early: 512,
                ..with_places(v, 0..512)
            },
            false,
        ),
        (
            "L 512, n 1, bit 510 clear",
            Stream {
                window: 512,
                early: 1,
                ..with_places(v, (0..510).chain([511]))
            },
            false,
        ),
        (
            "L 512, n 447, bit 0 set and bit 64 clear",
            Stream {
                window: 512,
                early: 447,
                ..with_places(v, [0, 511])
            },
            false,
        ),
        ("match with bit 64", with_places(m, [64]), false),
        ("match with bit 511", with_places(m, [511]), false),
        ("take-any, bit 64", with_places(f, [64]), false),
        ("take-any, bit 511", with_places(g, [511]), false),
        (
            "L 63, bit 63",
            Stream {
                window: 63,
                history: low(1 | 1 << 63),
                ..v
            },
            false,
        ),
    ]
}

#[test]
fn every_kind_of_damage() {
    for (name, record, settings_bad) in damaged() {
        for in_use in [1, 2, 255] {
            let record = Stream { in_use, ..record };
            assert!(!record.is_lawful(), "{name}");
            assert_eq!(record.settings_in_range(), !settings_bad, "{name}");

            let mut table = [record];
            let mut output = [FILL; 100];
            for number in [9, 10, 11, 5000] {
                let answer = arrival(&mut table, 0, &tagged(number), &mut output);
                assert_eq!(number_of(answer), 7, "{name}");
            }
            assert_eq!(table, [record], "{name}");
            assert_eq!(output, [FILL; 100], "{name}");

            // A tick counts it and leaves it.
            assert_eq!(
                tick(&mut table),
                Ok(Ticked {
                    reset: 0,
                    damaged: 1
                }),
                "{name}"
            );
            assert_eq!(table, [record], "{name}");

            let answer = number_of(reset(&mut table, 0));
            if settings_bad {
                assert_eq!(answer, 7, "{name}");
                assert_eq!(table, [record], "{name}");
            } else {
                assert_eq!(answer, 0, "{name}");
                let mended = Stream {
                    in_use,
                    resets: 1,
                    ..fresh(record.rule, record.window, record.reset_time)
                };
                assert_eq!(table, [mended], "{name}");
                assert!(table[0].is_lawful(), "{name}");
            }

            let mut table = [record];
            assert_eq!(close(&mut table, 0), Ok(()), "{name}");
            assert_eq!(
                table,
                [Stream {
                    in_use: 0,
                    ..record
                }],
                "{name}"
            );
            // A free record is neither lawful nor damaged.
            assert_eq!(
                tick(&mut table),
                Ok(Ticked {
                    reset: 0,
                    damaged: 0
                }),
                "{name}"
            );
            assert_eq!(number_of(reset(&mut table, 0)), 12, "{name}");
            assert_eq!(number_of(close(&mut table, 0)), 12, "{name}");
            assert_eq!(
                table,
                [Stream {
                    in_use: 0,
                    ..record
                }],
                "{name}"
            );
        }
    }
}

#[test]
fn vlan_ids_out_of_range() {
    // 4095 can be met by a frame, the higher ones cannot.
    for (vlan, answer) in [(4094, 0), (4095, 7), (4096 + 4095, 6), (65535, 6)] {
        let record = Stream {
            vlan,
            ..fresh(Stream::VECTOR, 4, 3)
        };
        let frame = tagged_to(DESTINATION, Some(vlan & 0x0FFF), 1);
        let mut table = [record];
        let mut output = [0; 100];
        assert_eq!(
            number_of(arrival(&mut table, 0, &frame, &mut output)),
            answer
        );
        let mut table = [record];
        assert_eq!(
            number_of(reset(&mut table, 0)),
            if answer == 0 { 0 } else { 7 }
        );
    }
}

#[test]
fn lawful_records_at_the_edges() {
    let lawful = [
        fresh(Stream::VECTOR, 2, 1),
        fresh(Stream::MATCH, 64, 65535),
        running(Stream::VECTOR, 64, 65535, 0, u64::MAX),
        running(Stream::VECTOR, 64, 1, 65535, 1),
        running(Stream::VECTOR, 63, 1, 65535, u64::MAX >> 1),
        running(Stream::VECTOR, 2, 1, 0, 0b11),
        with_early(running(Stream::VECTOR, 2, 1, 0, 0b11), 1),
        with_early(running(Stream::VECTOR, 2, 1, 0, 0b01), 1),
        with_early(running(Stream::VECTOR, 4, 1, 0, 0b0101), 1),
        with_early(running(Stream::VECTOR, 4, 1, 0, 0b0011), 2),
        with_early(running(Stream::VECTOR, 4, 1, 0, 0b1001), 3),
        with_early(running(Stream::VECTOR, 64, 1, 0, 1), 63),
        with_early(running(Stream::VECTOR, 64, 1, 0, 1 << 62 | 1), 1),
        fresh(Stream::VECTOR, 512, 1),
        running(Stream::VECTOR, 65, 1, 0, u64::MAX),
        with_places(running(Stream::VECTOR, 65, 1, 0, 0), [0, 64]),
        with_places(running(Stream::VECTOR, 512, 1, 0, 0), 0..512),
        with_places(running(Stream::VECTOR, 512, 1, 0, 0), [0, 511]),
        with_early(running(Stream::VECTOR, 512, 1, 0, 1), 511),
        running(Stream::MATCH, 512, 1, 65535, 0),
        running(Stream::MATCH, 2, 1, 65535, 0),
        Stream {
            vlan: 4094,
            remaining: 1,
            ..running(Stream::MATCH, 2, 65535, 7, 0)
        },
    ];
    for record in lawful {
        assert!(record.is_lawful(), "{record:?}");
    }
}

#[test]
fn every_flag_value_but_0_is_yes() {
    for (flag, any) in [(1, 1), (2, 2), (127, 128), (128, 256), (255, 65535)] {
        let record = Stream {
            in_use: flag,
            take_any: any,
            ..fresh(Stream::VECTOR, 4, 3)
        };
        assert!(record.is_lawful());
        let mut table = [record];
        assert_eq!(arrive(&mut table, 7), "up");
        let expected = Stream {
            in_use: flag,
            early: 3,
            arrivals: [1, 0],
            passed: 1,
            ..running(Stream::VECTOR, 4, 3, 7, 1)
        };
        assert_eq!(table, [expected]);
        let mut table = [record];
        assert_eq!(
            tick(&mut table),
            Ok(Ticked {
                reset: 0,
                damaged: 0
            })
        );
        assert_eq!(table, [record]);
    }
}

#[test]
fn a_tick_over_a_mixed_table() {
    // As many at a time as a table has room for.
    for some in damaged().chunks(40) {
        a_tick_over(some);
    }
}

fn a_tick_over(damaged: &[(&'static str, Stream, bool)]) {
    let lawful = running(Stream::VECTOR, 4, 3, 10, 0b0101);
    let mut table = vec![
        Stream::FREE,
        lawful,
        Stream {
            remaining: 1,
            ..lawful
        },
        Stream {
            remaining: 2,
            ..lawful
        },
        fresh(Stream::MATCH, 2, 1),
        Stream {
            in_use: 0,
            remaining: 1,
            ..lawful
        },
        Stream {
            remaining: 1,
            ..running(Stream::MATCH, 2, 1, 8, 0)
        },
    ];
    table.extend(damaged.iter().map(|(_, record, _)| record));
    let before = table.clone();
    let kinds = damaged.len();
    assert_eq!(
        tick(&mut table),
        Ok(Ticked {
            reset: 2,
            damaged: kinds
        })
    );
    let mut expected = before;
    expected[1].remaining = 2;
    expected[2] = Stream {
        resets: 1,
        ..fresh(Stream::VECTOR, 4, 3)
    };
    expected[3].remaining = 1;
    expected[6] = Stream {
        resets: 1,
        ..fresh(Stream::MATCH, 2, 1)
    };
    assert_eq!(table, expected);
}
