"""Layouts of embedded planar graphs: by the library, by the program, for streams of graphs; planar_code and reports."""
