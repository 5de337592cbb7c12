"""The commands for files of planar_code and for the output of `planarbend layout`."""
