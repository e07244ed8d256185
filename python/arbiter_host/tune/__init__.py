"""Settings with which groups get their goals: weights, requests, limits of others, a single one."""
