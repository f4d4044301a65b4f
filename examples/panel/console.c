/* Standard input and output on the console that semihosting lends. On a panel of your own a serial port takes its place:
 * put a byte, get a byte. */
#include <semihost.h>
#include <stdio.h>

enum { READ = 0, WRITE = 4 };           /* how semihosting opens it */

static int opened(int *handle, int how)
{
    if (*handle == 0)
        *handle = (int)sys_semihost_open(":tt", how);
    return *handle;
}

static int put(char c, FILE *file)
{
    static int handle;

    (void)file;
    return sys_semihost_write(opened(&handle, WRITE), &c, 1) == 0 ? (unsigned char)c : _FDEV_ERR;
}

static int get(FILE *file)
{
    static int handle;
    char c;

    (void)file;
    return sys_semihost_read(opened(&handle, READ), &c, 1) == 0 ? (unsigned char)c : _FDEV_EOF;
}

static FILE console = FDEV_SETUP_STREAM(put, get, NULL, _FDEV_SETUP_RW);

FILE *const stdin = &console;
FILE *const stdout = &console;
FILE *const stderr = &console;
