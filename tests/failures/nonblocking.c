/* nonblocking N PROGRAM ..: descriptor N does not block, and then the program. */
#include <fcntl.h>
#include <stdlib.h>
#include <unistd.h>

int main(int count, char **arguments) {
    if (count < 3 || fcntl(atoi(arguments[1]), F_SETFL, O_NONBLOCK) < 0) {
        return 3;
    }
    execv(arguments[2], arguments + 2);
    return 3;
}
