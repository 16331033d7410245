mod add_hyperedge;
mod contract_hyperedge_vertices;
mod join_hyperedges;
mod remove_hyperedge;
mod split_hyperedge;
mod update_hyperedge_vertices;
