# Lines that are refused, each with its number and its reason. A refused line changes nothing.
ls /
write /f hello
tmutil latestbackup
tmutil startbackup --block
newstore Mac
newvolume HD 6ba7b810-9dad-11d1-80b4-00c04fd430c8 1000
at 2009-03-02-090000
newvolume HD 6ba7b810-9dad-11d1-80b4-00c04fd430c8 1000
newvolume HD 6ba7b810-9dad-11d1-80b4-00c04fd430c8 1000
newstore Mac
at 2009-03-01-000000
tmutil latestbackup
cat /f
cat /
write /f hello
mkdir /f
mkdir /f/x
mkdir /a/b
rmdir /f
rmdir /
mkdir /a
write /a/g text
rmdir /a
rm /a
mv /a /a/b
mv /a /f
fill /big 16777217 0
rmx /f color
tmutil startbackup --block
tmutil startbackup --block
store ls /Backups.backupdb/Mac/2009-03-02-080000
store cat /Backups.backupdb/Mac/Latest/HD/a
store cat /Backups.backupdb/Mac/Latest/HD/none
store cat /Backups.backupdb/Mac/Latest/HD/f/x
thin
ls /
