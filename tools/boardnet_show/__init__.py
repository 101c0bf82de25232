"""What `boardnet show` and `boardnet manifest` are made of: rooms, each a folder, in the order of imports that
tools/README.md has.

Nothing here is proved, and nothing here judges: what is right and wrong is what `check` says and `audit` confirms. The
copper is known from the program alone, by `flatten`'s normal form and the report's places and sources. What is added,
as where copper comes nearest, or where two names part, is a suggestion and is called so.
"""
