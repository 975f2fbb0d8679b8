"""A second reading of the wiki, written apart from the first, in Python: what a page's text means (pages), what a script may say
(scripts), how the farm of two regions answers it (caches, farm), what is written of that (reports), and the scripts of `stir`
(generator).

It follows the definitions in crates/wiki_model/specs and takes nothing from the code that is proved. It is slow and plain: each
rule is a few lines that a reader can hold beside its definition. It never runs out of memory.
"""
