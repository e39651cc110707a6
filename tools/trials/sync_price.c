/* Has a program that it is loaded into believe that what it wrote is on the disk. tools/trials/sync_price.py uses it. */
int fsync(int file) { return file < 0 ? -1 : 0; }
int fdatasync(int file) { return file < 0 ? -1 : 0; }
