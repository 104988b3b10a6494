"""python3 -m chi_waves is the program chi-waves."""

import sys

from chi_waves.program import main

sys.exit(main())
