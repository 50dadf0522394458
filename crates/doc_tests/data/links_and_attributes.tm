# Symbolic links, modes, owners and extra attributes, in the volume and in a snapshot.
at 2009-03-02-090000
newvolume HD 6ba7b810-9dad-11d1-80b4-00c04fd430c8 1000
newstore Mac
write /f hello
ln /l ../Users/Shared%20Items
cat /l
write /l text
chmod /f 600
chown /f 0 80
chmod /l 777
setx /f color red
setx /f seen
setx /f color dark%20blue
ls /f
rmx /f seen
ls /f
at 2009-03-02-091500
rm /l
ln /l f
mkdir /Shared
chown /Shared 502 20
setx /Shared note x
ls /
tmutil startbackup --block
store ls /Backups.backupdb/Mac/Latest/HD
store ls /Backups.backupdb/Mac/Latest/HD/f
store cat /Backups.backupdb/Mac/Latest/HD/l
