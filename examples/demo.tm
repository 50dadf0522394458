# A letter is written, backed up, changed and backed up again; the first snapshot still has it.
at 2009-03-02-090000
newvolume HD 6ba7b810-9dad-11d1-80b4-00c04fd430c8 1000
newstore Mac
write /letter Dear%20John
tmutil startbackup --block
at 2009-03-02-100000
write /letter Dear%20Jane
mkdir /Pictures
tmutil startbackup --block
tmutil listbackups
cat /letter
store cat /Backups.backupdb/Mac/2009-03-02-090000/HD/letter
store ls /Backups.backupdb/Mac/Latest/HD
