/**
 * Records the reference stores of a running Java program as a trace for {@code g1replay}.
 *
 * <p>The way of a store: {@link ninkoda.recorder.StoreSites} puts a call at each place where a class stores a reference,
 * {@link ninkoda.recorder.Stores} is what these calls reach, {@link ninkoda.recorder.Recording}
 * takes one store at a time, {@link ninkoda.recorder.ObjectLayout} gives the objects their slots,
 * and {@link ninkoda.recorder.Trace} has the lines. At the end {@link ninkoda.recorder.LiveCheck}
 * compares what was recorded with the objects.
 */
package ninkoda.recorder;
