// Shapes as SVG elements, and a drawing as a file. Words of a file become text and never markup.

const SVG = 'http://www.w3.org/2000/svg';

export function svgElement({ name, attributes, title, text }) {
    const element = document.createElementNS(SVG, name);
    for (const [key, value] of Object.entries(attributes)) element.setAttribute(key, value);
    if (title) element.append(Object.assign(document.createElementNS(SVG, 'title'), { textContent: title }));
    if (text) element.append(text);
    return element;
}

// The picture, which says in words what it shows to those who do not see it. The name is that of the drawing on the page.
export function svgOf({ width, height, label, words, shapes }, name) {
    const [viewBox, id] = [`0 0 ${width} ${height}`, `${name}-words`];
    const svg = svgElement({ name: 'svg', attributes: { viewBox, width, height, role: 'img', 'aria-label': label, 'aria-describedby': id } });
    svg.append(svgElement({ name: 'desc', attributes: { id }, text: words }), ...shapes.map(svgElement));
    return svg;
}

// What the style sheet of the page decides of lines, areas and texts.
const LOOKS = ['fill', 'stroke', 'stroke-width', 'stroke-dasharray', 'opacity', 'font-family', 'font-size', 'text-anchor'];

// The drawing as a file of its own, with the looks that it has on the page.
export function svgFile(svg) {
    const copy = svg.cloneNode(true);
    copy.setAttribute('xmlns', SVG);
    const [seen, copied] = [svg.querySelectorAll('*'), copy.querySelectorAll('*')];
    seen.forEach((one, index) => {
        if (one.localName === 'title' || one.localName === 'desc') return;
        const style = getComputedStyle(one);
        for (const look of LOOKS) copied[index].setAttribute(look, style.getPropertyValue(look));
    });
    const fill = getComputedStyle(svg.parentElement).backgroundColor;
    copy.prepend(svgElement({ name: 'rect', attributes: { width: '100%', height: '100%', fill } }));
    return new XMLSerializer().serializeToString(copy);
}
