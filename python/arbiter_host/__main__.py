"""`python3 -m arbiter_host` is arbiterctl."""
from arbiter_host.command import main

main()
