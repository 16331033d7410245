//! A day at the bench, from Rust.
use vaultsorrel::*;

#[test]
fn a_table_is_filled_asked_and_refused() {
    let mut table = vec![0; TABLE_WORDS];
    for number in 0..5 {
        assert_eq!(add_vertex(&mut table, 10 + number), Ok(number.into()));
    }
    assert_eq!(add_hyperedge(&mut table, &[0, 1, 2], 4), Ok(0));
    assert_eq!(add_hyperedge(&mut table, &[0, 3], 1), Ok(1));
    assert_eq!(add_hyperedge(&mut table, &[3, 2], 2), Ok(2));

    let mut out = [7; 8];
    assert_eq!(get_bfs(&table, Vertex(0), &mut out), Ok(4));
    assert_eq!(out, [0, 1, 3, 2, 7, 7, 7, 7]);

    let before = table.clone();
    assert_eq!(add_hyperedge(&mut table, &[0, 9, 8], 1), Err(Refusal::VertexNotLive(Vertex(9))));
    assert_eq!(add_hyperedge(&mut table, &[], 6), Err(Refusal::NoMembers(6)));
    assert_eq!(update_hyperedge_vertices(&mut table, Hyperedge(9), &[]), Err(Refusal::NoMembers(9)));
    assert_eq!(remove_hyperedge(&mut table, Hyperedge(9)), Err(Refusal::HyperedgeNotLive(Hyperedge(9))));
    assert_eq!(table, before);

    let mut short = [7; 3];
    assert_eq!(get_bfs(&table, Vertex(0), &mut short), Err(Refusal::NoRoom(4)));
    assert_eq!(short, [7; 3]);

    assert_eq!(remove_vertex(&mut table, Vertex(0)), Ok(0));
    assert_eq!(remove_vertex(&mut table, Vertex(3)), Ok(0));
    assert_eq!(get_full_vertex_hyperedges(&table, Vertex(2), &mut out), Ok(5));
    assert_eq!(out[..5], [2, 1, 2, 1, 2]);

    assert_eq!(is_empty(&[1, 2, 3]), Err(Refusal::NotWellFormed));
    assert_eq!(clear(&mut table), Ok(0));
    assert_eq!(is_empty(&table), Ok(1));
}

#[test]
fn equal_neighbours_are_refused_and_read() {
    let mut table = vec![0; TABLE_WORDS];
    for weight in 0..3 {
        add_vertex(&mut table, weight).unwrap();
    }
    add_hyperedge(&mut table, &[1, 2, 1], 5).unwrap();
    let before = table.clone();
    let twice = |v| Err(Refusal::EqualNeighbours(Vertex(v)));
    assert_eq!(add_hyperedge(&mut table, &[0, 2, 2, 1, 1], 5), twice(2));
    assert_eq!(add_hyperedge(&mut table, &[2, 2, 9], 5), Err(Refusal::VertexNotLive(Vertex(9))));
    assert_eq!(update_hyperedge_vertices(&mut table, Hyperedge(0), &[0, 1, 1]), twice(1));
    assert_eq!(update_hyperedge_vertices(&mut table, Hyperedge(9), &[0, 0]), twice(0));
    assert_eq!(table, before);

    assert_eq!(remove_vertex(&mut table, Vertex(2)), Ok(0));
    let mut out = [7; 3];
    assert_eq!(get_full_vertex_hyperedges(&table, Vertex(1), &mut out), Ok(3));
    assert_eq!(out, [2, 1, 1]);
    assert_eq!(add_hyperedge(&mut table, &[1, 1], 5), twice(1));

    let mut text = [0; 200];
    let bytes = write_frames(&table, &mut text).unwrap() as usize;
    let mut other = vec![3; TABLE_WORDS];
    assert_eq!(read_frames(&mut other, &text[..bytes]), Ok(0));
    assert_eq!(other, table);
    assert_eq!(topological_sort(&other, &mut out), Err(Refusal::ClosedWalk));
}

#[test]
fn a_table_is_read_back() {
    let mut table = vec![0; TABLE_WORDS];
    for weight in 0..6 {
        add_vertex(&mut table, 10 + weight).unwrap();
    }
    for list in [&[5, 3, 5][..], &[3, 1], &[1, 3], &[0, 5]] {
        add_hyperedge(&mut table, list, 7).unwrap();
    }
    remove_vertex(&mut table, Vertex(2)).unwrap();
    remove_hyperedge(&mut table, Hyperedge(1)).unwrap();
    assert_eq!(get_vertex_weight(&table, Vertex(5)), Ok(15));
    assert_eq!(get_vertex_weight(&table, Vertex(2)), Err(Refusal::VertexNotLive(Vertex(2))));
    assert_eq!(get_hyperedge_weight(&table, Hyperedge(3)), Ok(7));
    assert_eq!(get_hyperedge_weight(&table, Hyperedge(1)), Err(Refusal::HyperedgeNotLive(Hyperedge(1))));

    let mut out = [9; 6];
    assert_eq!(get_vertices(&table, &mut out), Ok(5));
    assert_eq!(out, [0, 1, 3, 4, 5, 9]);
    assert_eq!(get_hyperedges(&table, &mut out), Ok(3));
    assert_eq!(out, [0, 2, 3, 4, 5, 9]);
    assert_eq!(get_hyperedge_vertices(&table, Hyperedge(0), &mut out), Ok(3));
    assert_eq!(out, [5, 3, 5, 4, 5, 9]);
    assert_eq!(get_hyperedge_vertices(&table, Hyperedge(1), &mut out), Err(Refusal::HyperedgeNotLive(Hyperedge(1))));

    // Steps: 5 to 3, 3 to 5, 1 to 3, 0 to 5.
    assert_eq!(get_upstream_vertices(&table, Vertex(3), &mut out), Ok(3));
    assert_eq!(out[..3], [0, 1, 5]);
    assert_eq!(get_downstream_vertices(&table, Vertex(3), &mut out), Ok(1));
    assert_eq!(out[..1], [5]);
    assert_eq!(get_upstream_vertices(&table, Vertex(4), &mut out), Ok(0));
    assert_eq!(get_downstream_vertices(&table, Vertex(2), &mut out), Err(Refusal::VertexNotLive(Vertex(2))));

    let mut short = [9; 2];
    assert_eq!(get_vertices(&table, &mut short), Err(Refusal::NoRoom(5)));
    assert_eq!(get_hyperedge_vertices(&table, Hyperedge(0), &mut short), Err(Refusal::NoRoom(3)));
    assert_eq!(get_upstream_vertices(&table, Vertex(3), &mut short), Err(Refusal::NoRoom(3)));
    assert_eq!(short, [9; 2]);
    assert_eq!(get_hyperedges(&[1, 2, 3], &mut short), Err(Refusal::NotWellFormed));
}

#[test]
fn two_vertices_are_merged() {
    let mut table = vec![0; TABLE_WORDS];
    for weight in 0..4 {
        add_vertex(&mut table, weight).unwrap();
    }
    for list in [[0, 2], [1, 2], [3, 1]] {
        add_hyperedge(&mut table, &list, 5).unwrap();
    }
    let before = table.clone();
    assert_eq!(merge_vertices(&mut table, Vertex(9), Vertex(8)), Err(Refusal::VertexNotLive(Vertex(9))));
    assert_eq!(merge_vertices(&mut table, Vertex(0), Vertex(8)), Err(Refusal::VertexNotLive(Vertex(8))));
    assert_eq!(merge_vertices(&mut table, Vertex(3), Vertex(3)), Err(Refusal::SameVertex(Vertex(3))));
    assert_eq!(merge_vertices(&mut table, Vertex(2), Vertex(1)), Err(Refusal::SideBySide(Hyperedge(1))));
    assert_eq!(table, before);

    assert_eq!(merge_vertices(&mut table, Vertex(0), Vertex(1)), Ok(0));
    let mut out = [7; 10];
    assert_eq!(get_full_vertex_hyperedges(&table, Vertex(0), &mut out), Ok(9));
    assert_eq!(out, [2, 0, 2, 2, 0, 2, 2, 3, 0, 7]);
    assert_eq!(remove_vertex(&mut table, Vertex(1)), Err(Refusal::VertexNotLive(Vertex(1))));
}

#[test]
fn a_tray_is_withdrawn_whole_or_not_at_all() {
    let mut table = vec![0; TABLE_WORDS];
    for weight in 0..5 {
        add_vertex(&mut table, weight).unwrap();
    }
    for list in [[0, 1], [1, 2], [3, 4]] {
        add_hyperedge(&mut table, &list, 5).unwrap();
    }
    let (vertex, hyperedge) = (|v| Withdrawal::vertex(Vertex(v)), |e| Withdrawal::hyperedge(Hyperedge(e)));
    let other = Withdrawal { kind: 2, number: 0 };
    let before = table.clone();
    assert_eq!(withdraw_tray(&mut table, &[]), Ok(0));
    assert_eq!(withdraw_tray(&mut table, &[vertex(0), vertex(5)]), Err(Refusal::BadRecord(1)));
    assert_eq!(withdraw_tray(&mut table, &[vertex(3), hyperedge(3), other]), Err(Refusal::BadRecord(1)));
    assert_eq!(withdraw_tray(&mut table, &[other, vertex(5)]), Err(Refusal::BadRecord(0)));
    assert_eq!(table, before);

    // Hyperedge 0 is emptied before its own record, vertex 0 is named twice, and hyperedge 1 keeps what is left of it.
    let tray = [vertex(0), vertex(1), hyperedge(0), vertex(0), hyperedge(2)];
    let mut alone = table.clone();
    assert_eq!(withdraw_tray(&mut table, &tray), Ok(0));
    remove_vertex(&mut alone, Vertex(1)).unwrap();
    remove_hyperedge(&mut alone, Hyperedge(2)).unwrap();
    remove_vertex(&mut alone, Vertex(0)).unwrap();
    assert_eq!(table, alone);
    let mut out = [7; 3];
    assert_eq!(get_full_vertex_hyperedges(&table, Vertex(2), &mut out), Ok(2));
    assert_eq!(out, [1, 2, 7]);
    assert_eq!(withdraw_tray(&mut table, &tray), Err(Refusal::BadRecord(0)));
    assert_eq!(withdraw_tray(&mut table[1..], &tray), Err(Refusal::NotWellFormed));
}

#[test]
fn frame_text_reads_back() {
    let mut table = vec![0; TABLE_WORDS];
    add_vertex(&mut table, 7).unwrap();
    add_vertex(&mut table, 9).unwrap();
    add_hyperedge(&mut table, &[0, 1], 5).unwrap();
    let mut text = [0; 200];
    let bytes = write_frames(&table, &mut text).unwrap() as usize;
    assert_eq!(bytes, 114);
    let mut other = vec![3; TABLE_WORDS];
    assert_eq!(read_frames(&mut other, &text[..bytes - 1]), Err(Refusal::BadText(4)));
    assert_eq!(other, vec![3; TABLE_WORDS]);
    assert_eq!(read_frames(&mut other, &text[..bytes]), Ok(0));
    assert_eq!(other, table);
}

/// A table of four vertices, made through the desk: 0 steps to 1 and to 2, and both to 3.
fn desk() -> (Vec<u32>, Vec<u32>) {
    let (mut table, mut states) = (vec![0; TABLE_WORDS], vec![0; STATES_WORDS]);
    for number in 0..4 {
        assert_eq!(desk_add_vertex(&mut table, &mut states, 10 + number), Ok(number.into()));
    }
    assert_eq!(desk_add_hyperedge(&mut table, &mut states, &[0, 1, 3], 5), Ok(0));
    assert_eq!(desk_add_hyperedge(&mut table, &mut states, &[0, 2, 3], 5), Ok(1));
    (table, states)
}

#[test]
fn a_tube_waits_until_everything_upstream_is_released() {
    let (table, mut states) = desk();
    assert_eq!(states, [0; STATES_WORDS]);
    assert_eq!(desk_release(&table, &mut states, Vertex(0)), Err(Refusal::NotReviewed(Vertex(0))));
    for v in [3, 0, 2, 1, 3] {
        assert_eq!(desk_review(&table, &mut states, Vertex(v)), Ok(0));
    }
    assert_eq!(desk_release(&table, &mut states, Vertex(3)), Err(Refusal::UpstreamHeld(Vertex(1))));
    assert_eq!(desk_release(&table, &mut states, Vertex(4)), Err(Refusal::VertexNotLive(Vertex(4))));
    assert_eq!(states[..5], [1, 1, 1, 1, 0]);

    assert_eq!(desk_release(&table, &mut states, Vertex(0)), Ok(0));
    let mut out = [7; 4];
    assert_eq!(desk_releasable(&table, &states, &mut out), Ok(2));
    assert_eq!(out, [1, 2, 7, 7]);
    assert_eq!(desk_list(&table, &states, REVIEWED, &mut out[..2]), Err(Refusal::NoRoom(3)));
    assert_eq!(desk_list(&table, &states, REVIEWED, &mut out), Ok(3));
    assert_eq!(out, [1, 2, 3, 7]);
    assert_eq!(desk_list(&table, &states, 3, &mut out), Ok(0));

    let at = |place| Err(Refusal::BadOrder(place));
    assert_eq!(desk_accept_order(&table, &states, &[0, 1, 3, 2]), at(3));
    assert_eq!(desk_accept_order(&table, &states, &[0, 1, 0, 9]), at(2));
    assert_eq!(desk_accept_order(&table, &states, &[9, 9]), at(0));
    assert_eq!(desk_accept_order(&table, &states, &[0, 1, 2]), at(3));
    assert_eq!(desk_accept_order(&table, &states, &[0, 2, 1, 3]), Ok(0));
    for v in [0, 2, 1, 3] {
        assert_eq!(desk_release(&table, &mut states, Vertex(v)), Ok(0));
        assert_eq!(desk_review(&table, &mut states, Vertex(v)), Ok(0));
        assert_eq!(desk_state(&table, &states, Vertex(v)), Ok(RELEASED.into()));
    }
}

#[test]
fn states_follow_their_vertices() {
    let (mut table, mut states) = desk();
    let sign = |table: &[u32], states: &mut [u32]| {
        for v in [0, 1, 3] {
            desk_review(table, states, Vertex(v)).unwrap();
        }
        desk_release(table, states, Vertex(0)).unwrap();
    };
    sign(&table, &mut states);
    assert_eq!(states[..5], [2, 1, 0, 1, 0]);
    assert_eq!(desk_remove_vertex(&mut table, &mut states, Vertex(0)), Ok(0));
    assert_eq!(states[..5], [1, 0, 1, 0, 0]);
    assert_eq!(desk_merge_vertices(&mut table, &mut states, Vertex(2), Vertex(1)), Ok(0));
    assert_eq!(states[..5], [0, 1, 0, 0, 0]);
    assert_eq!(desk_update_hyperedge_vertices(&mut table, &mut states, Hyperedge(0), &[3]), Ok(0));
    assert_eq!(desk_remove_hyperedge(&mut table, &mut states, Hyperedge(1)), Ok(0));
    assert_eq!(desk_state(&table, &states, Vertex(3)), Ok(REVIEWED.into()));
    assert_eq!(desk_state(&table, &states, Vertex(1)), Err(Refusal::VertexNotLive(Vertex(1))));

    let before = (table.clone(), states.clone());
    let tray = [Withdrawal::vertex(Vertex(2)), Withdrawal::hyperedge(Hyperedge(1))];
    assert_eq!(desk_withdraw_tray(&mut table, &mut states, &tray), Err(Refusal::BadRecord(1)));
    assert_eq!((&table, &states), (&before.0, &before.1));
    assert_eq!(desk_withdraw_tray(&mut table, &mut states, &tray[..1]), Ok(0));
    assert_eq!(states[..2], [1, 0]);

    let (mut table, mut states) = desk();
    sign(&table, &mut states);
    let mut text = [0; 400];
    let bytes = write_frames(&table, &mut text).unwrap() as usize;
    let before = (table.clone(), states.clone());
    assert_eq!(desk_read_frames(&mut table, &mut states, &text[1..bytes]), Err(Refusal::BadText(1)));
    assert_eq!((&table, &states), (&before.0, &before.1));
    assert_eq!(desk_read_frames(&mut table, &mut states, &text[..bytes]), Ok(0));
    assert_eq!((&table, &states), (&before.0, &vec![0; STATES_WORDS]));
}

#[test]
fn states_that_do_not_fit_are_refused() {
    let (mut table, states) = desk();
    let before = table.clone();
    let refused = Err(Refusal::NotWellFormed);
    for (place, word) in [(0, 3), (4, 1), (255, 2)] {
        let mut bad = states.clone();
        bad[place] = word;
        let kept = bad.clone();
        assert_eq!(desk_add_vertex(&mut table, &mut bad, 7), refused);
        assert_eq!(desk_review(&table, &mut bad, Vertex(9)), refused);
        assert_eq!(desk_accept_order(&table, &bad, &[]), refused);
        assert_eq!((&table, &bad), (&before, &kept));
    }
    assert_eq!(desk_state(&table, &states[1..], Vertex(0)), refused);
    assert_eq!(desk_clear(&mut table, &mut vec![0; STATES_WORDS + 1]), refused);
    assert_eq!(table, before);
    let mut bad = vec![9; STATES_WORDS];
    assert_eq!(desk_clear(&mut table, &mut bad), Ok(0));
    assert_eq!((is_empty(&table), bad), (Ok(1), vec![0; STATES_WORDS]));
}
