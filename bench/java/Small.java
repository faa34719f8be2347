import java.util.ArrayList;
import java.util.HashMap;
import java.util.List;
import java.util.Map;

/**
 * The tutorial's language (clients/lsp/attrd_lsp/data) in the form that JastAdd2 generates: a class for each class of the grammar; for each
 * cached attribute a field and a flag, or a map where it has a parameter; a direct call for each other one; a walk up the tree, node by
 * node, for what is inherited. An attribute that is declared for three classes stands in each of them, as it is generated. An edit is
 * followed by a flush: a walk over the whole tree that forgets all. Checks for circles, which JastAdd2 can generate, are left out: this
 * is the fastest form.
 */
final class Small {
    private Small() {}

    /** A node. What a class doesn't have is refused by the methods for edits. */
    abstract static class Node {
        private Node parent;

        /** Makes this the parent of a child, which may be null. */
        final <T extends Node> T adopt(T child) {
            if (child != null) {
                ((Node) child).parent = this;
            }
            return child;
        }

        final Node getParent() {
            return parent;
        }

        /** The declaration of a name, for what stands below this node. */
        Decl defineLookup(String name) {
            return parent.defineLookup(name);
        }

        /** The kind of a name, for what stands below this node. */
        Kind defineLookupKind(String name) {
            return parent.defineLookupKind(name);
        }

        /** Forgets the cached values of this node. */
        void flushCache() {}

        /** Forgets the cached values of this node and of all below it. */
        void flushTreeCache() {
            flushCache();
        }

        Node child(String part) {
            throw new IllegalArgumentException("no child " + part);
        }

        List<? extends Node> list(String part) {
            throw new IllegalArgumentException("no list " + part);
        }

        void insert(String part, int index, Node element) {
            throw new IllegalArgumentException("no list " + part);
        }

        void setToken(String part, String value) {
            throw new IllegalArgumentException("no token " + part);
        }
    }

    static final class Program extends Node {
        final List<Kind> kinds = new ArrayList<>();
        private boolean errorsComputed;
        private int errorsCached;
        private Map<String, Kind> kindNamedCached;

        int errors() {
            if (!errorsComputed) {
                int sum = 0;
                for (Kind kind : kinds) {
                    sum += kind.errors();
                }
                errorsCached = sum;
                errorsComputed = true;
            }
            return errorsCached;
        }

        Kind kindNamed(String name) {
            if (kindNamedCached == null) {
                kindNamedCached = new HashMap<>(4);
            }
            if (kindNamedCached.containsKey(name)) {
                return kindNamedCached.get(name);
            }
            Kind found = null;
            for (Kind kind : kinds) {
                if (kind.id.equals(name)) {
                    found = kind;
                    break;
                }
            }
            kindNamedCached.put(name, found);
            return found;
        }

        @Override
        Kind defineLookupKind(String name) {
            return kindNamed(name);
        }

        @Override
        void flushCache() {
            errorsComputed = false;
            kindNamedCached = null;
        }

        @Override
        void flushTreeCache() {
            flushCache();
            for (Kind kind : kinds) {
                kind.flushTreeCache();
            }
        }

        @Override
        List<Kind> list(String part) {
            return kinds;
        }

        @Override
        void insert(String part, int index, Node element) {
            kinds.add(index, adopt((Kind) element));
        }
    }

    abstract static class Kind extends Node {
        String id;
        private boolean errorsComputed;
        private int errorsCached;

        boolean isBelow(Kind kind) {
            return this == kind;
        }

        String error() {
            return "";
        }

        int own() {
            return error().equals("") ? 0 : 1;
        }

        final int errors() {
            if (!errorsComputed) {
                errorsCached = computeErrors();
                errorsComputed = true;
            }
            return errorsCached;
        }

        int computeErrors() {
            return 0;
        }

        @Override
        void flushCache() {
            errorsComputed = false;
        }

        @Override
        void setToken(String part, String value) {
            id = value;
        }
    }

    static final class Basic extends Kind {}

    static final class ClassDecl extends Kind {
        KindUse above;
        final List<Decl> fields = new ArrayList<>();
        Block block;
        private Map<String, Decl> fieldCached;

        Decl field(String name) {
            if (fieldCached == null) {
                fieldCached = new HashMap<>(4);
            }
            if (fieldCached.containsKey(name)) {
                return fieldCached.get(name);
            }
            Decl found = ownField(name) != null ? ownField(name) : superClass() != null ? superClass().field(name) : null;
            fieldCached.put(name, found);
            return found;
        }

        Decl ownField(String name) {
            for (Decl field : fields) {
                if (field.id.equals(name)) {
                    return field;
                }
            }
            return null;
        }

        ClassDecl superClass() {
            return above != null && above.kind() instanceof ClassDecl ? (ClassDecl) above.kind() : null;
        }

        @Override
        boolean isBelow(Kind kind) {
            return this == kind || superClass() != null && superClass().isBelow(kind);
        }

        @Override
        String error() {
            return above != null && superClass() == null ? "no class " + above.id : "";
        }

        @Override
        int computeErrors() {
            int sum = 0;
            for (Decl field : fields) {
                sum += field.errors();
            }
            return own() + sum + block.errors();
        }

        @Override
        Decl defineLookup(String name) {
            return field(name);
        }

        @Override
        void flushCache() {
            super.flushCache();
            fieldCached = null;
        }

        @Override
        void flushTreeCache() {
            flushCache();
            if (above != null) {
                above.flushTreeCache();
            }
            for (Decl field : fields) {
                field.flushTreeCache();
            }
            block.flushTreeCache();
        }

        @Override
        Node child(String part) {
            return part.equals("Block") ? block : above;
        }

        @Override
        List<Decl> list(String part) {
            return fields;
        }

        @Override
        void insert(String part, int index, Node element) {
            fields.add(index, adopt((Decl) element));
        }
    }

    static final class KindUse extends Node {
        String id;
        private boolean kindComputed;
        private Kind kindCached;

        Kind lookupKind(String name) {
            return getParent().defineLookupKind(name);
        }

        Kind kind() {
            if (!kindComputed) {
                kindCached = lookupKind(id);
                kindComputed = true;
            }
            return kindCached;
        }

        @Override
        void flushCache() {
            kindComputed = false;
        }

        @Override
        void setToken(String part, String value) {
            id = value;
        }
    }

    abstract static class Stmt extends Node {
        private boolean errorsComputed;
        private int errorsCached;

        boolean declares(String name) {
            return false;
        }

        String error() {
            return "";
        }

        int own() {
            return error().equals("") ? 0 : 1;
        }

        final int errors() {
            if (!errorsComputed) {
                errorsCached = computeErrors();
                errorsComputed = true;
            }
            return errorsCached;
        }

        abstract int computeErrors();

        @Override
        void flushCache() {
            errorsComputed = false;
        }
    }

    static final class Block extends Stmt {
        final List<Stmt> statements = new ArrayList<>();
        private Map<String, Decl> localCached;

        Decl lookup(String name) {
            return getParent().defineLookup(name);
        }

        Decl local(String name) {
            if (localCached == null) {
                localCached = new HashMap<>(4);
            }
            if (localCached.containsKey(name)) {
                return localCached.get(name);
            }
            Decl found = null;
            for (Stmt statement : statements) {
                if (statement.declares(name)) {
                    found = (Decl) statement;
                    break;
                }
            }
            localCached.put(name, found);
            return found;
        }

        @Override
        Decl defineLookup(String name) {
            return local(name) != null ? local(name) : lookup(name);
        }

        @Override
        int computeErrors() {
            int sum = 0;
            for (Stmt statement : statements) {
                sum += statement.errors();
            }
            return sum;
        }

        @Override
        void flushCache() {
            super.flushCache();
            localCached = null;
        }

        @Override
        void flushTreeCache() {
            flushCache();
            for (Stmt statement : statements) {
                statement.flushTreeCache();
            }
        }

        @Override
        List<Stmt> list(String part) {
            return statements;
        }

        @Override
        void insert(String part, int index, Node element) {
            statements.add(index, adopt((Stmt) element));
        }
    }

    static final class Decl extends Stmt {
        String id;
        KindUse declared;
        Expr init;
        private boolean kindComputed;
        private Kind kindCached;

        Kind kind() {
            if (!kindComputed) {
                kindCached = declared != null ? declared.kind() : init != null ? init.kind() : null;
                kindComputed = true;
            }
            return kindCached;
        }

        @Override
        boolean declares(String name) {
            return id.equals(name);
        }

        @Override
        String error() {
            if (kind() == null) {
                return "no kind is known";
            }
            return init != null && init.kind() != null && !init.kind().isBelow(kind())
                    ? "wants " + kind().id + ", gets " + init.kind().id
                    : "";
        }

        @Override
        int computeErrors() {
            return own() + (init != null ? init.errors() : 0);
        }

        @Override
        void flushCache() {
            super.flushCache();
            kindComputed = false;
        }

        @Override
        void flushTreeCache() {
            flushCache();
            if (declared != null) {
                declared.flushTreeCache();
            }
            if (init != null) {
                init.flushTreeCache();
            }
        }

        @Override
        Node child(String part) {
            return part.equals("Init") ? init : declared;
        }

        @Override
        void setToken(String part, String value) {
            id = value;
        }
    }

    static final class Show extends Stmt {
        Expr shown;

        @Override
        int computeErrors() {
            return shown.errors();
        }

        @Override
        void flushTreeCache() {
            flushCache();
            shown.flushTreeCache();
        }

        @Override
        Node child(String part) {
            return shown;
        }
    }

    abstract static class Expr extends Node {
        private boolean kindComputed;
        private Kind kindCached;
        private boolean errorsComputed;
        private int errorsCached;

        Kind lookupKind(String name) {
            return getParent().defineLookupKind(name);
        }

        final Kind kind() {
            if (!kindComputed) {
                kindCached = computeKind();
                kindComputed = true;
            }
            return kindCached;
        }

        abstract Kind computeKind();

        boolean mayBeInt() {
            return kind() == null || kind() == lookupKind("int");
        }

        String error() {
            return "";
        }

        int own() {
            return error().equals("") ? 0 : 1;
        }

        final int errors() {
            if (!errorsComputed) {
                errorsCached = computeErrors();
                errorsComputed = true;
            }
            return errorsCached;
        }

        int computeErrors() {
            return own();
        }

        @Override
        void flushCache() {
            kindComputed = false;
            errorsComputed = false;
        }
    }

    static final class Num extends Expr {
        int value;

        @Override
        Kind computeKind() {
            return lookupKind("int");
        }

        @Override
        void setToken(String part, String spelled) {
            value = Integer.parseInt(spelled);
        }
    }

    static final class Truth extends Expr {
        boolean value;

        @Override
        Kind computeKind() {
            return lookupKind("boolean");
        }
    }

    static final class Name extends Expr {
        String id;
        private boolean declComputed;
        private Decl declCached;

        Decl lookup(String name) {
            return getParent().defineLookup(name);
        }

        Decl decl() {
            if (!declComputed) {
                declCached = lookup(id);
                declComputed = true;
            }
            return declCached;
        }

        @Override
        Kind computeKind() {
            return decl() != null ? decl().kind() : null;
        }

        @Override
        String error() {
            return decl() != null ? "" : "no declaration of " + id;
        }

        @Override
        void flushCache() {
            super.flushCache();
            declComputed = false;
        }

        @Override
        void setToken(String part, String value) {
            id = value;
        }
    }

    static final class Dot extends Expr {
        Expr left;
        String id;
        private boolean declComputed;
        private Decl declCached;

        Decl decl() {
            if (!declComputed) {
                declCached = left.kind() instanceof ClassDecl ? ((ClassDecl) left.kind()).field(id) : null;
                declComputed = true;
            }
            return declCached;
        }

        @Override
        Kind computeKind() {
            return decl() != null ? decl().kind() : null;
        }

        @Override
        String error() {
            return decl() != null ? "" : "no field " + id;
        }

        @Override
        int computeErrors() {
            return own() + left.errors();
        }

        @Override
        void flushCache() {
            super.flushCache();
            declComputed = false;
        }

        @Override
        void flushTreeCache() {
            flushCache();
            left.flushTreeCache();
        }

        @Override
        Node child(String part) {
            return left;
        }
    }

    /** What Plus and Less have in common, each in its own class where JastAdd2 generates it. */
    abstract static class Two extends Expr {
        Expr left;
        Expr right;

        @Override
        String error() {
            return left.mayBeInt() && right.mayBeInt() ? "" : "wants numbers";
        }

        @Override
        int computeErrors() {
            return own() + left.errors() + right.errors();
        }

        @Override
        void flushTreeCache() {
            flushCache();
            left.flushTreeCache();
            right.flushTreeCache();
        }

        @Override
        Node child(String part) {
            return part.equals("Left") ? left : right;
        }
    }

    static final class Plus extends Two {
        @Override
        Kind computeKind() {
            return lookupKind("int");
        }
    }

    static final class Less extends Two {
        @Override
        Kind computeKind() {
            return lookupKind("boolean");
        }
    }
}
