"""PDDL and PDDLStream files rewritten into what the program reads."""
