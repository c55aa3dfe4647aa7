/* E22: the library has no thread of this number (UPC 7.2.3). */
int main(void) {
  return upc_affinitysize(8, 4, THREADS);
}
