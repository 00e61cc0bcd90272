/*
 * Steps over lent bits, but for taking them: how many are left, and going past some. The one source
 * file of each peer includes it.
 */

/* Of more than 2^32 bits the first 2^32 count. */
size_t dm_left(const uint8_t *lent, size_t length, size_t at)
{
	size_t end = length < 1u << 29 ? 8 * length : (size_t)1 << 32;

	(void)lent;
	return at < end ? end - at : 0;
}

uint8_t dm_skip(const uint8_t *lent, size_t length, size_t at, size_t n, struct dm_step *step)
{
	step->value = 0;
	step->at = at;
	if (dm_left(lent, length, at) < n)
		return DM_LENGTH;
	step->at = at + n;
	return 0;
}
