/* Runs a program and measures it: meter PROGRAM WORD..
 *
 * The last line on standard error has its processor seconds, the most memory that it held in KB,
 * and its exit status, negative if a signal ended it. What a process holds as it becomes another
 * program counts as that program's memory. So this is a process of its own, of less than 2 MB.
 */
#include <stdio.h>
#include <sys/resource.h>
#include <sys/wait.h>
#include <unistd.h>

static double seconds(struct timeval time) { return time.tv_sec + time.tv_usec / 1e6; }

int main(int count, char **words) {
  struct rusage used;
  int status;
  pid_t started = count < 2 ? -1 : fork();
  if (started == 0) {
    execv(words[1], words + 1);
    _exit(127);
  }
  if (started < 0 || wait4(started, &status, 0, &used) < 0) return 1;
  status = WIFEXITED(status) ? WEXITSTATUS(status) : -WTERMSIG(status);
  double took = seconds(used.ru_utime) + seconds(used.ru_stime);
  fprintf(stderr, "%f %ld %d\n", took, used.ru_maxrss, status);
}
