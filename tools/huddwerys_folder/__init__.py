"""A folder of Huddwerys, decoded by docs/FORMATS.md alone: no part of the program is used, and nothing is opened for writing.

    spelling     numbers, texts and values as bytes
    blocks       the four encodings of a block, the position index of a column, the delete vector of a container
    catalogue    tables, projections and containers, and the rules that they keep
    folder       the files: gates and root, what the catalogue lists, the rows of a container block by block
    checking     every value read, and the projections of a table held against each other
    schema       the statements that make the tables and projections again
    dump         a script and load files that make the newest visible rows again
    look         what bin/vert-show prints
"""
