package ninkoda.recorder;

import java.util.ArrayList;
import java.util.List;
import jdk.internal.misc.Unsafe;

/** The places in code where a field is stored. A site's number stands in the code, so that its field is looked up once. */
final class FieldSites {
    private static final Unsafe UNSAFE = Unsafe.getUnsafe();
    private static final int UNKNOWN = -1;

    private static final List<Site> sites = new ArrayList<>();

    private static final class Site {
        private final String owner;
        private final String field;
        private int offset = UNKNOWN;

        Site(String owner, String field) {
            this.owner = owner;
            this.field = field;
        }
    }

    private FieldSites() {}

    /** A new site, where code stores the field of the class, whose name has slashes. */
    static synchronized int add(String owner, String field) {
        sites.add(new Site(owner.replace('/', '.'), field));
        return sites.size() - 1;
    }

    /** The offset of the site's field in an object that has it, in bytes. */
    static synchronized int offset(int number, Object holder) {
        Site site = sites.get(number);
        if (site.offset == UNKNOWN) {
            site.offset = offset(site, holder.getClass());
        }
        return site.offset;
    }

    // The field stands in the site's class or in one above it. A class below may have another field
    // of the name.
    private static int offset(Site site, Class<?> holder) {
        Class<?> at = holder;
        while (!at.getName().equals(site.owner)) {
            at = at.getSuperclass();
        }
        while (at != null) {
            try {
                return (int) UNSAFE.objectFieldOffset(at, site.field);
            } catch (InternalError e) {
                at = at.getSuperclass();
            }
        }
        throw new IllegalStateException("no field " + site.field + " in " + site.owner);
    }
}
