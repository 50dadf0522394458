# Two backups with changes between them: each snapshot holds the volume as it stood at its date.
at 2009-03-02-090000
newvolume HD 6ba7b810-9dad-11d1-80b4-00c04fd430c8 1000
newstore Mac
mkdir /Documents
write /Documents/letter Dear%20John
fill /Documents/numbers 4 250
tmutil startbackup --block

at 2009-03-02-100000
append /Documents/letter ,%0A
rm /Documents/numbers
mkdir /Pictures
mv /Documents/letter /Documents/draft
tmutil startbackup --block

store ls /Backups.backupdb/Mac/2009-03-02-090000/HD/Documents
store ls /Backups.backupdb/Mac/2009-03-02-100000/HD/Documents
store cat /Backups.backupdb/Mac/2009-03-02-090000/HD/Documents/letter
store cat /Backups.backupdb/Mac/Latest/HD/Documents/draft
store cat /Backups.backupdb/Mac/2009-03-02-090000/HD/Documents/numbers
store ls /Backups.backupdb
store ls /Backups.backupdb/Mac
store ls /Backups.backupdb/Mac/Latest
store ls /Backups.backupdb/Mac/Latest/HD
tmutil listbackups
tmutil latestbackup
tmutil machinedirectory
