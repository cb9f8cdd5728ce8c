"""The commands, a file for each: `skelfora NAME` runs COMMAND of commands/NAME.py. skelfora/door.py has their order and their lines."""
