// Prints the values of tests/interface/third_party.py as Bouncy Castle's SLH-DSA (FIPS 205) computes them, at layer 0 and tree 0.
// `python3 tests/interface/third_party.py --jar PATH` compiles it, runs it and compares.
// It stands in Bouncy Castle's package, since the classes that it calls are not public.
package org.bouncycastle.pqc.crypto.slhdsa;

import org.bouncycastle.util.Arrays;
import org.bouncycastle.util.encoders.Hex;

public class Values {
    private final byte[] seed;
    private final byte[] secret;

    private Values(String seed, String secret) {
        this.seed = Hex.decode(seed);
        this.secret = Hex.decode(secret);
    }

    private SLHDSAEngine engine(SLHDSAParameters parameters) {
        SLHDSAEngine engine = parameters.getEngine();
        engine.init(seed);
        return engine;
    }

    private static void print(String name, int number, byte[] value) {
        System.out.println(name + " " + number + " " + Hex.toHexString(value));
    }

    private void leafKey(int leaf) {
        ADRS address = new ADRS();
        address.setKeyPairAddress(leaf);
        print("leaf key", leaf, new WotsPlus(engine(SLHDSAParameters.sha2_128s)).pkGen(secret, seed, address));
    }

    // The root of a tree as high as the parameters say.
    private void root(SLHDSAParameters parameters) {
        SLHDSAEngine engine = engine(parameters);
        print("root", engine.H_PRIME, new HT(engine, secret, seed).xmss_PKgen(secret, seed, new ADRS()));
    }

    // The root of a tree of any height.
    private void root(int height) {
        HT trees = new HT(engine(SLHDSAParameters.sha2_128f), secret, seed);
        print("root", height, trees.treehash(secret, 0, height, seed, new ADRS()));
    }

    private void signature(String message, int leaf) {
        HT trees = new HT(engine(SLHDSAParameters.sha2_128s), secret, seed);
        SIG_XMSS made = trees.xmss_sign(Hex.decode(message), secret, leaf, seed, new ADRS());
        print("values", leaf, made.getWOTSSig());
        print("siblings", leaf, Arrays.concatenate(made.getXMSSAUTH()));
    }

    public static void main(String[] arguments) {
        Values first = new Values("101112131415161718191a1b1c1d1e1f", "e0e1e2e3e4e5e6e7e8e9eaebecedeeef");
        for (int leaf : new int[] {0, 1, 341, 1023}) {
            first.leafKey(leaf);
        }
        first.root(SLHDSAParameters.sha2_128f);
        first.root(SLHDSAParameters.sha2_128s);
        first.root(10);
        first.signature("248d6a61d20638b8e5c026930c3e6039", 341);
        Values second = new Values("ba7816bf8f01cfea414140de5dae2223", "b00361a396177a9cb410ff61f20015ad");
        second.leafKey(0);
        second.leafKey(682);
        second.root(0);
        second.root(1);
        second.root(SLHDSAParameters.sha2_128f);
    }
}
