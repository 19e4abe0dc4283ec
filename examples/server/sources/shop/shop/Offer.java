package shop;

/** Leans on a class of the other plug-in. */
public class Offer extends mail.Inbox {
}
