package lib;

/** In the package of the same name, but of another loader. */
public class Spy extends Lock {
}
