int count_items (const char *name)
{
  if (name = 0)
    return 0;
  return lookup (name);
}
