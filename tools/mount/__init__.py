"""A session's tree, mounted: the files and folders that a session keeps, for the programs that people have.

Nothing is decided here. Each call of a user is a transaction by that user, which the session answers; what is not
asked for in a transaction (`row`, `content`, `room`) is looked up to tell sizes and to write whole files, and says
nothing of who may do what.
"""
