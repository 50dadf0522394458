# A file is written, backed up, and read from the snapshot.
at 2009-03-02-090000
newvolume HD 6ba7b810-9dad-11d1-80b4-00c04fd430c8 1000
newstore Mac
write /f hello
tmutil startbackup --block
store cat /Backups.backupdb/Mac/2009-03-02-090000/HD/f
