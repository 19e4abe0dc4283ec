package lib;

/** The layer's own queue. */
public class Queue {
    protected int length;
}
