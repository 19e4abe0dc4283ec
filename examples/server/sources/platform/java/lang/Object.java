package java.lang;

/** The root. A platform of its own keeps the example small: one class is all that these loads need of it. */
public class Object {
    public Object() {
    }
}
