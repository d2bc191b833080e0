/* Prints the listing of the program arcs with printf: what its time is measured against. */
#include <stdio.h>

int main(void)
{
    int numNodes;
    if (scanf("%d", &numNodes) != 1 || numNodes < 1 || numNodes > 65535) {
        printf("8\n");
        return 0;
    }
    int Mid0 = (numNodes - 1) / 2;
    int Mid1 = (numNodes & 0x01) ? Mid0 : Mid0 + 1;
    int pen0, pen1;
    for (pen0 = 1; pen0 < Mid0 + 1; pen0 = 2 * pen0 + 1)
        ;
    pen0 = pen0 / 2 - 1;
    pen1 = numNodes - pen0 - 1;
    if (pen1 <= 2 * pen0 + 3) {
        Mid0 = pen1 - 1;
        Mid1 = pen0 + 1;
    }
    int arcs = numNodes - 1 + Mid0 / 2;
    printf("nodes %d arcs %d round %d\n", numNodes, arcs, 2 * arcs + numNodes - 1);
    for (int myNum = 0; myNum < numNodes; myNum++) {
        int Out0 = 2 * myNum + 1;
        int Out1 = Out0 + 1;
        if (myNum == numNodes - 1)
            continue;
        if (myNum >= Mid1)
            printf("%d %d\n", myNum, (numNodes + myNum + 1) / 2);
        else if (Mid0 >= Out1)
            printf("%d %d\n%d %d\n", myNum, Out0, myNum, Out1);
        else if (Mid0 == Out0)
            printf("%d %d\n", myNum, Out0);
        else
            printf("%d %d\n", myNum, numNodes - myNum - 1);
    }
    return 0;
}
