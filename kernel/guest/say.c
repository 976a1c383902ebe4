/*
 * say FILE TEXT: writes TEXT to FILE by one write(2), and prints what came of it: 0, or below 0 the error's number. Of
 * /proc/hp_guest it prints what a read of the same open file gives.
 */
#include <errno.h>
#include <fcntl.h>
#include <stdio.h>
#include <string.h>
#include <unistd.h>

int main(int count, char **words)
{
	char answer[32];
	ssize_t size;
	int asks = count == 3 && !strcmp(words[1], "/proc/hp_guest");
	int file = count == 3 ? open(words[1], asks ? O_RDWR : O_WRONLY) : -1;

	if (file < 0 || write(file, words[2], strlen(words[2])) < 0) {
		printf("%d\n", -errno);
		return 1;
	}
	if (!asks) {
		printf("0\n");
		return 0;
	}
	size = read(file, answer, sizeof(answer) - 1);
	answer[size < 0 ? 0 : size] = 0;
	fputs(answer, stdout);
	return 0;
}
