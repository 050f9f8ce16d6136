#include "study.h"
int main() {
  int i;
  GS_On();
  for (i = 1; i <= 3; i++) {
    subst("base.cfg", i, "job.tmp");
    simulate("job.tmp", "res.tmp");
    post("res.tmp", "all.txt");
  }
  GS_Off(0);
  return 0;
}
