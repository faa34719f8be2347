/** Reads terms of the tutorial's language, in whose texts nothing is escaped. */
final class SmallReader {
    private final String text;
    private int at;

    private SmallReader(String text) {
        this.text = text;
    }

    /** The tree of a term. */
    static Small.Node read(String term) {
        return new SmallReader(term).node();
    }

    private void expect(char sign) {
        if (!takes(sign)) {
            throw new IllegalArgumentException("no " + sign + " at " + at);
        }
    }

    private boolean takes(char sign) {
        if (text.charAt(at) != sign) {
            return false;
        }
        at++;
        return true;
    }

    /** What stands before the next one of these signs, which is left. */
    private String before(char sign) {
        int begin = at;
        at = text.indexOf(sign, at);
        return text.substring(begin, at);
    }

    private String quoted() {
        expect('"');
        String found = before('"');
        at++;
        return found;
    }

    private Small.Node node() {
        String name = before('(');
        at++;
        Small.Node made = made(name);
        expect(')');
        return made;
    }

    /** A node, or null for an empty optional; the comma behind it is taken. */
    private Small.Node optional() {
        Small.Node found = takes('-') ? null : node();
        takes(',');
        return found;
    }

    private void elements(Small.Node of, String part) {
        expect('[');
        for (int index = 0; !takes(']'); index++) {
            of.insert(part, index, node());
            takes(',');
        }
        takes(',');
    }

    private Small.Node made(String name) {
        switch (name) {
            case "Program":
                return withElements(new Small.Program(), "Kind");
            case "Block":
                return withElements(new Small.Block(), "Stmt");
            case "Basic":
            case "KindUse":
            case "Name":
                return named(name);
            case "ClassDecl":
                return classDecl();
            case "Decl":
                return decl();
            case "Show": {
                Small.Show show = new Small.Show();
                show.shown = show.adopt((Small.Expr) node());
                return show;
            }
            default:
                return expression(name);
        }
    }

    private Small.Node withElements(Small.Node made, String part) {
        elements(made, part);
        return made;
    }

    private Small.Node named(String name) {
        Small.Node made = name.equals("Basic") ? new Small.Basic() : name.equals("KindUse") ? new Small.KindUse() : new Small.Name();
        made.setToken("ID", quoted());
        return made;
    }

    private Small.Node classDecl() {
        Small.ClassDecl made = new Small.ClassDecl();
        made.id = quoted();
        expect(',');
        made.above = made.adopt((Small.KindUse) optional());
        elements(made, "Field");
        made.block = made.adopt((Small.Block) node());
        return made;
    }

    private Small.Node decl() {
        Small.Decl made = new Small.Decl();
        made.id = quoted();
        expect(',');
        made.declared = made.adopt((Small.KindUse) optional());
        made.init = made.adopt((Small.Expr) optional());
        return made;
    }

    private Small.Node expression(String name) {
        switch (name) {
            case "Num": {
                Small.Num made = new Small.Num();
                made.value = Integer.parseInt(before(')'));
                return made;
            }
            case "Truth": {
                Small.Truth made = new Small.Truth();
                made.value = before(')').equals("true");
                return made;
            }
            case "Dot": {
                Small.Dot made = new Small.Dot();
                made.left = made.adopt((Small.Expr) node());
                expect(',');
                made.id = quoted();
                return made;
            }
            case "Plus":
                return two(new Small.Plus());
            case "Less":
                return two(new Small.Less());
            default:
                throw new IllegalArgumentException("no class " + name);
        }
    }

    private Small.Node two(Small.Two made) {
        made.left = made.adopt((Small.Expr) node());
        expect(',');
        made.right = made.adopt((Small.Expr) node());
        return made;
    }
}
