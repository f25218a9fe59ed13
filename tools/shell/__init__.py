"""A session for hands: the words that people know, each as a transaction of a user, and stories told with them."""
