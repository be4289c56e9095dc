from mftb.fleet.command import main

main()
