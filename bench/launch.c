/* launch REPORT PROGRAM WORD..: runs a program, and writes to the file REPORT one line with its exit status (or 256 and more where a
   signal ended it), its processor time in microseconds, user and system, the most kilobytes that it held, and its page faults that took no reading.

   The benches start programs by it, since a process that Python starts itself is told to have held as much as Python did. */
#include <stdio.h>
#include <stdlib.h>
#include <sys/resource.h>
#include <sys/wait.h>
#include <unistd.h>

static long long microseconds(struct timeval time) { return time.tv_sec * 1000000LL + time.tv_usec; }

int main(int count, char **words) {
  if (count < 3) return 2;
  pid_t child = fork();
  if (child < 0) return 2;
  if (child == 0) {
    execv(words[2], words + 2);
    _exit(127);
  }
  int status;
  struct rusage used;
  if (wait4(child, &status, 0, &used) != child) return 2;
  FILE *report = fopen(words[1], "w");
  if (!report) return 2;
  int code = WIFEXITED(status) ? WEXITSTATUS(status) : 256 + WTERMSIG(status);
#ifdef __APPLE__
  long kilobytes = used.ru_maxrss / 1024;
#else
  long kilobytes = used.ru_maxrss;
#endif
  long long time = microseconds(used.ru_utime) + microseconds(used.ru_stime);
  fprintf(report, "%d %lld %ld %ld\n", code, time, kilobytes, used.ru_minflt);
  return fclose(report) ? 2 : 0;
}
