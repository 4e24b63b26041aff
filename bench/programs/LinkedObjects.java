/** A list of 500 objects, turned round and added up in each round. */
public class LinkedObjects {
    static Link reversed(Link first) {
        Link turned = null;
        while (first != null) {
            Link next = first.next;
            first.next = turned;
            turned = first;
            first = next;
        }
        return turned;
    }

    static int hash(Link first) {
        int hash = 0;
        for (Link link = first; link != null; link = link.next) {
            hash = hash * 31 + link.item;
        }
        return hash;
    }

    public static int run(int rounds) {
        Link first = null;
        for (int item = 0; item < 500; item++) {
            first = new Link(item, first);
        }
        int sum = 0;
        for (int round = 0; round < rounds; round++) {
            first = reversed(first);
            sum += hash(first);
        }
        return sum;
    }
}

class Link {
    final int item;
    Link next;

    Link(int item, Link next) {
        this.item = item;
        this.next = next;
    }
}
