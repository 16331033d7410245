mod add_vertex;
mod merge_vertices;
mod remove_vertex;
