import java.util.Hashtable;
import javax.naming.Context;
import javax.naming.NamingEnumeration;
import javax.naming.directory.BasicAttribute;
import javax.naming.directory.BasicAttributes;
import javax.naming.directory.DirContext;
import javax.naming.directory.InitialDirContext;
import javax.naming.directory.SearchControls;
import javax.naming.directory.SearchResult;

/** java People.java URL.. : JNDI over several replicas, with pooled connections, and referrals followed. */
public class People {
    static final String[] URLS = {
        "ldap://127.0.0.1:14602/dc=example,dc=com", "ldap://127.0.0.1:14603/dc=example,dc=com", "ldap://127.0.0.1:14601/dc=example,dc=com"
    };

    static Hashtable<String, String> settings(String[] urls) {
        Hashtable<String, String> settings = new Hashtable<>();
        settings.put(Context.INITIAL_CONTEXT_FACTORY, "com.sun.jndi.ldap.LdapCtxFactory");
        settings.put(Context.PROVIDER_URL, String.join(" ", urls));
        settings.put(Context.SECURITY_AUTHENTICATION, "simple");
        settings.put(Context.SECURITY_PRINCIPAL, "cn=admin,dc=example,dc=com");
        settings.put(Context.SECURITY_CREDENTIALS, "secret");
        // An update at a backup is referred to the primary.
        settings.put(Context.REFERRAL, "follow");
        settings.put("com.sun.jndi.ldap.connect.pool", "true");
        settings.put("com.sun.jndi.ldap.connect.timeout", "2000");
        settings.put("com.sun.jndi.ldap.read.timeout", "5000");
        // Without it JNDI gives the octets of these types as text.
        settings.put("java.naming.ldap.attributes.binary", "jpegPhoto userCertificate");
        return settings;
    }

    static BasicAttributes person(String name) {
        BasicAttributes person = new BasicAttributes(true);
        person.put(new BasicAttribute("objectClass", "inetOrgPerson"));
        person.put("cn", name);
        person.put("sn", "J");
        return person;
    }

    static int count(DirContext context, String name) throws Exception {
        SearchControls controls = new SearchControls();
        controls.setSearchScope(SearchControls.ONELEVEL_SCOPE);
        controls.setReturningAttributes(new String[] {"mail", "cn"});
        NamingEnumeration<SearchResult> results = context.search("ou=People", "(&(objectClass=inetOrgPerson)(uid={0}))", new Object[] {name}, controls);
        int count = 0;
        while (results.hasMore()) {
            results.next();
            count++;
        }
        return count;
    }

    /** A backup shows an update some milliseconds after its answer: asks until it does. */
    static int countOnceShown(DirContext context, String name) throws Exception {
        int count = count(context, name);
        while (count == 0) {
            Thread.sleep(20);
            count = count(context, name);
        }
        return count;
    }

    public static void main(String[] words) throws Exception {
        Hashtable<String, String> settings = settings(words.length > 0 ? words : URLS);
        for (int number = 0; number < 3; number++) {
            DirContext context = new InitialDirContext(settings);
            String uid = "j" + number;
            String name = "uid=" + uid + ",ou=People";
            context.createSubcontext(name, person("J " + number));
            System.out.println("added " + name);
            System.out.println("found " + countOnceShown(context, uid));
            context.destroySubcontext(name);
            System.out.println("deleted " + name);
            context.close();
        }
    }
}
