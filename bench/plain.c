// The load by plain threads, a thread for each actor and a queue under a mutex for each instance; then all entries, by stamp and actor.
#include <pthread.h>
#include <stdio.h>
#include <stdlib.h>

enum { ROOM = 4 };
struct line { unsigned long stamp; unsigned actor, instance, kind, number; };
struct place {
  pthread_mutex_t lock;
  pthread_cond_t changed;
  unsigned queue[ROOM], first, waiting, count;
  unsigned long last;
  struct line *lines;
};
static unsigned instances, calls;
static struct place *places;

static unsigned long note(struct place *p, unsigned actor, unsigned long seen, unsigned kind, unsigned number) {
  p->last = (p->last > seen ? p->last : seen) + 1;
  p->lines[p->count++] = (struct line){p->last, actor, p - places, kind, number};
  return p->last;
}

static unsigned long put(unsigned actor, unsigned long seen, unsigned number) {
  if (actor == instances) return seen;
  struct place *p = &places[actor];
  pthread_mutex_lock(&p->lock);
  while (p->waiting == ROOM) pthread_cond_wait(&p->changed, &p->lock);
  p->queue[(p->first + p->waiting++) % ROOM] = number;
  seen = note(p, actor, seen, 0, number);
  pthread_mutex_unlock(&p->lock);
  pthread_cond_signal(&p->changed);
  return seen;
}

static unsigned long serve(unsigned actor, unsigned long seen) {
  struct place *p = &places[actor - 1];
  pthread_mutex_lock(&p->lock);
  while (p->waiting == 0) pthread_cond_wait(&p->changed, &p->lock);
  unsigned number = p->queue[p->first];
  p->first = (p->first + 1) % ROOM;
  p->waiting--;
  seen = note(p, actor, seen, 1, number);
  pthread_mutex_unlock(&p->lock);
  pthread_cond_signal(&p->changed);
  seen = put(actor, seen, number);
  pthread_mutex_lock(&p->lock);
  seen = note(p, actor, seen, 2, number);
  pthread_mutex_unlock(&p->lock);
  return seen;
}

static void *work(void *at) {
  unsigned actor = (unsigned)(size_t)at;
  unsigned long seen = 0;
  for (unsigned k = 0; k < calls; k++) seen = actor ? serve(actor, seen) : put(0, seen, k);
  return NULL;
}

static int compare(const void *a, const void *b) {
  const struct line *x = a, *y = b;
  return x->stamp != y->stamp ? (x->stamp < y->stamp ? -1 : 1) : (int)x->actor - (int)y->actor;
}

int main(int count, char **words) {
  if (count != 3) return 2;
  instances = atoi(words[1]);
  calls = atoi(words[2]);
  size_t entries = (size_t)instances * calls * 3;
  struct line *all = malloc(entries * sizeof *all);
  pthread_t *threads = malloc((instances + 1) * sizeof *threads);
  places = calloc(instances, sizeof *places);
  for (unsigned i = 0; i < instances; i++) {
    pthread_mutex_init(&places[i].lock, NULL);
    pthread_cond_init(&places[i].changed, NULL);
    places[i].lines = all + (size_t)i * calls * 3;
  }
  for (size_t i = 0; i <= instances; i++) pthread_create(&threads[i], NULL, work, (void *)i);
  for (size_t i = 0; i <= instances; i++) pthread_join(threads[i], NULL);
  qsort(all, entries, sizeof *all, compare);
  for (size_t i = 0; i < entries; i++)
    printf("%lu %u %u %u %u\n", all[i].stamp, all[i].actor, all[i].instance, all[i].kind, all[i].number);
  return 0;
}
