"""`python3 -m stakeplay RECIPE ..` is `stakeplay-recipes RECIPE ..`."""
from stakeplay.commands import main

main()
