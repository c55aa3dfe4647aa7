/* Breadth-first search: how many edges each vertex is from vertex 0. In each level a thread takes those of its
   vertices that were reached in the level before, and marks their neighbours, which may lie on other threads; after a
   barrier each thread looks at the marks of its own. Two threads may mark one vertex: both write the same, so no lock
   is needed. Whether any vertex was reached stands in one strict element for each level. */
#include <upc_relaxed.h>
#include <stdio.h>

#define VERTICES 96
#define EDGES 3

shared int distance[VERTICES];
shared char mark[VERTICES];
strict shared int reached[VERTICES];

/* The neighbour of a vertex by its edge e. */
int neighbour(int vertex, int e) {
  switch (e) {
    case 0:
      return (vertex + 1) % VERTICES;
    case 1:
      return vertex * 5 % VERTICES;
    default:
      return (vertex * vertex + 7) % VERTICES;
  }
}

void spread(int level) {
  int vertex;
  int e;
  upc_forall (vertex = 0; vertex < VERTICES; vertex++; &distance[vertex])
    if (distance[vertex] == level)
      for (e = 0; e < EDGES; e++)
        mark[neighbour(vertex, e)] = 1;
  upc_barrier;
  upc_forall (vertex = 0; vertex < VERTICES; vertex++; &distance[vertex])
    if (distance[vertex] < 0 && mark[vertex]) {
      distance[vertex] = level + 1;
      reached[level] = 1;
    }
  upc_barrier;
}

int main(void) {
  int level = 0;
  int vertex;
  upc_forall (vertex = 0; vertex < VERTICES; vertex++; &distance[vertex])
    distance[vertex] = vertex == 0 ? 0 : -1;
  do
    spread(level);
  while (reached[level++]);
  if (MYTHREAD == 0)
    for (vertex = 0; vertex < VERTICES; vertex++)
      printf("%2d%c", distance[vertex], vertex % 24 == 23 ? '\n' : ' ');
  return 0;
}
