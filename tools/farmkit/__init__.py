"""What the scripts of tools/ and bench/ share: processes of a farm, HTTP, maps, tapes, disks, hosts, what is
compared and what is measured."""
