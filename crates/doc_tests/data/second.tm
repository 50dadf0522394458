# A second run over the images that examples/first.tm left: the file is still there, and so is the
# snapshot, which can be listed and read.
cat /f
tmutil listbackups
store ls /Backups.backupdb/Mac/Latest/HD
store cat /Backups.backupdb/Mac/2009-03-02-090000/HD/f
