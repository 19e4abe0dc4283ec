package lib;

/** For this package alone. */
class Lock {
}
