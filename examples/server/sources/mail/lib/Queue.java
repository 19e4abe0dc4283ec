package lib;

/** A newer queue, which this plug-in brings along. */
public class Queue {
    protected long length;
}
