"""python -m skelfora: the door."""
import sys

from .door import main

sys.exit(main())
